         TITLE 'SMFX83 - copies selected SMF records to the collector'
*---------------------------------------------------------------------*
* Entry: R1 -> parameter list, whose first word is the record.        *
* Reentrant, AMODE 31, RMODE ANY.                                     *
*---------------------------------------------------------------------*
SMFX83   CSECT ,
SMFX83   AMODE 31
SMFX83   RMODE ANY
         IEABRCX DEFINE                relative branches
         YREGS ,
         J     START                   around the eyecatcher
         DC    AL1(EYEEND-EYE)
EYE      DC    C'SMFX83  &SYSDATC'
EYEEND   DS    0H
START    BAKR  R14,0                   caller's state to the stack
         LARL  R12,CONSTS
         USING CONSTS,R12
         L     R2,0(,R1)               the record
         USING SMFRCD,R2
         STORAGE OBTAIN,LENGTH=WORKLEN,SP=230,LOC=(31,64)
         LR    R13,R1
         USING WORK,R13
         MVC   SAVEAREA+4(4),=C'F1SA'
         XC    COLBUF,COLBUF
         LHI   R3,SMALLBUF             most records are short
         IF    (CLI,SMFRTY,EQ,30),OR,(CLI,SMFRTY,EQ,14)
           STORAGE OBTAIN,LENGTH=(R3),SP=229,ADDR=COLBUF,COND=YES
           IF    (LTR,R15,R15,NZ)
             J     NOBUF               the record is counted only
           ENDIF
           L     R4,COLBUF
           LLGH  R5,SMFLEN
           CHI   R5,SMALLBUF
           JH    TOOLONG
           LR    R6,R4
           LR    R7,R5
           LR    R8,R2
           LR    R9,R7
           MVCL  R6,R8
           L     R15,COLLECT           hand it to the collector
           LR    R1,R4
           BASR  R14,R15
TOOLONG    DS    0H
           L     R4,COLBUF
           STORAGE RELEASE,LENGTH=SMALLBUF,SP=229,ADDR=(R4)
         ENDIF
         SELECT CLI,SMFRTY,EQ
           WHEN  (42)                  dataset statistics
             STORAGE OBTAIN,LENGTH=BIGBUF,SP=229,LOC=31,               X
               ADDR=(R10)
             MVC   0(8,R10),=C'DSSTATS '
             STORAGE RELEASE,LENGTH=BIGBUF,SP=229,ADDR=(R10)
           WHEN  (70,71,72)
             LHI   R3,RMFBUF
             STORAGE OBTAIN,LENGTH=(R3),SP=229,LOC=31
             LR    R10,R1
             LHI   R3,RMFBUF
             STORAGE RELEASE,LENGTH=(R3),SP=229,ADDR=(R10)
           OTHRWISE
             LLGH  R3,SMFLEN           as long as the record is
             STORAGE OBTAIN,LENGTH=(R3),SP=229,LOC=31
         ENDSEL
NOBUF    LHI   R0,1
         LAA   R5,R0,COUNT-CONSTS(R12)
         LR    R1,R13
         STORAGE RELEASE,LENGTH=WORKLEN,SP=230,ADDR=(R1)
         XR    R15,R15                 write the record
         PR
CONSTS   DS    0D
COLLECT  DC    V(SMFCOLL)
COUNT    DC    F'0'
         LTORG ,
SMALLBUF EQU   2048
RMFBUF   EQU   32760
BIGBUF   EQU   4*4096
WORK     DSECT
SAVEAREA DS    18F
COLBUF   DS    A
         DS    0D
WORKLEN  EQU   *-WORK
SMFRCD   DSECT
SMFLEN   DS    H
SMFSEG   DS    H
SMFFLG   DS    X
SMFRTY   DS    X
SMFTME   DS    XL4
         END   SMFX83
