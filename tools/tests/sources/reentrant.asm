*---------------------------------------------------------------------*
*  RENTSRV - A REENTRANT PROGRAM.  ITS DYNAMIC STORAGE COMES FROM     *
*  SUBPOOL 0, ITS BUFFERS FROM TWO OTHERS; ALL GOES BEFORE RETURN.    *
*---------------------------------------------------------------------*
         TITLE 'RENTSRV - WORK AREA, BUFFERS, A TABLE THAT GROWS'
RENTSRV  CSECT
RENTSRV  AMODE 31
RENTSRV  RMODE ANY
R0       EQU   0
R1       EQU   1
R2       EQU   2
R3       EQU   3
R4       EQU   4
R5       EQU   5
R6       EQU   6
R7       EQU   7
R8       EQU   8
R9       EQU   9
R10      EQU   10
R11      EQU   11
R12      EQU   12
R13      EQU   13
R14      EQU   14
R15      EQU   15
BUFSP    EQU   20                      SUBPOOL OF THE BUFFERS
TABSP    EQU   21                      SUBPOOL OF THE TABLE
BUFCNT   EQU   4
BUFLEN   EQU   BUFHDRL+1024
         STM   R14,R12,12(R13)
         LR    R12,R15
         USING RENTSRV,R12
         LA    R0,WORKLEN
         GETMAIN RU,LV=(R0),SP=0,LOC=BELOW  DYNAMIC STORAGE             00000100
         ST    R13,4(,R1)
         LR    R13,R1
         USING WORK,R13
*        FOUR BUFFERS IN ONE AREA, ABOVE THE LINE WHERE THAT'S POSSIBLE
         STORAGE OBTAIN,                                               X
               LENGTH=BUFCNT*BUFLEN,   ALL OF THEM                     X
               SP=BUFSP,                                               X
               ADDR=(R8),                                              X
               BNDRY=PAGE,                                             X
               LOC=(31,64)
         ST    R8,BUFADDR
         LHI   R5,TABENTL
         MH    R5,=H'100'              ROOM FOR A HUNDRED
         GETMAIN RC,LV=(R5),SP=TABSP,LOC=ANY
         LTR   R15,R15
         BNZ   NOTABLE
         ST    R1,TABADDR
         LA    R3,L'MSGTEXT
         AHI   R3,8
         STORAGE OBTAIN,LENGTH=(R3),SP=BUFSP,ADDR=MSGADDR,COND=YES
*        AS MUCH AS THERE IS, BUT NOT LESS THAN ONE ENTRY
         GETMAIN VRU,LV=(200*TABENTL,TABENTL),SP=TABSP,LOC=ANY
         ST    R1,MOREADDR
         ST    R0,MORELEN
*        A SMALL AREA OF THE SYSTEM'S SUBPOOL 230, BY ITS OWN KEY
         STORAGE OBTAIN,LENGTH=512,SP=230,KEY=8,ADDR=(R9),LOC=BELOW
         STORAGE RELEASE,LENGTH=512,SP=230,KEY=8,ADDR=(R9)
*        THE TABLE IS FULL: A LARGER ONE, THE OLD ONE GOES
         L     R4,TABADDR
         L     R6,=A(250*TABENTL)
         GETMAIN RU,LV=(R6),SP=TABSP,LOC=ANY
         LR    R7,R1
         LR    R1,R4
         FREEMAIN RU,LV=100*TABENTL,A=(R1),SP=TABSP
         ST    R7,TABADDR
         XR    R2,R2
LOOP     DS    0H
         LA    R2,1(,R2)
         C     R2,=F'250'
         BL    LOOP
*        AN AREA FROM THE BEGIN TO THE END, ALL OF WHICH GOES IN PARTS
         STORAGE OBTAIN,LENGTH=4*L'SLOT,SP=BUFSP,ADDR=(R10)
         STORAGE RELEASE,LENGTH=4*L'SLOT,ADDR=(R10),SP=BUFSP
         STORAGE RELEASE,LENGTH=L'MSGTEXT+8,ADDR=MSGADDR,SP=BUFSP
EXIT     L     R8,BUFADDR
         STORAGE RELEASE,LENGTH=BUFCNT*BUFLEN,ADDR=(R8),SP=BUFSP
         FREEMAIN RU,SP=TABSP          THE TABLES, AND WHAT CAME BESIDE
         LR    R1,R13
         L     R13,4(,R13)
         FREEMAIN RU,LV=WORKLEN,A=(R1),SP=0
         LM    R14,R12,12(R13)
         SR    R15,R15
         BR    R14
NOTABLE  DS    0H
         B     EXIT
MSGTEXT  DC    C'RENTSRV01I TABLE BUILT'
         LTORG
*---------------------------------------------------------------------*
WORK     DSECT
SAVE     DS    18F
BUFADDR  DS    A
TABADDR  DS    A
MSGADDR  DS    A
MOREADDR DS    A
MORELEN  DS    F
FLAGS    DS    XL2
         DS    H
TIME     DS    PL8
DOUBLE   DS    D
LINE     DS    CL133
         DS    0D
WORKLEN  EQU   *-WORK
BUFHDR   DSECT
BUFNEXT  DS    A
BUFUSED  DS    F
BUFKEY   DS    CL8
BUFHDRL  EQU   *-BUFHDR
TAB      DSECT
TABKEY   DS    CL12
TABPTR   DS    A
TABFLAG  DS    X
         DS    XL3
TABTIME  DS    D
TABENTL  EQU   *-TAB
SLOTS    DSECT
SLOT     DS    10XL48
         END   RENTSRV
