VARBUFS  RSECT ,
VARBUFS  AMODE 31
VARBUFS  RMODE ANY
* Gets as much buffer space as there is, between a least and a most.
         SYSSTATE ARCHLVL=2,AMODE64=NO
         IEABRCX DEFINE
         ASMDREG ,
         SAVE  (14,12)
         LARL  R12,DATA
         USING DATA,R12
         GETMAIN RU,LV=WALEN,LOC=31
         ST    R13,4(,R1)
         ST    R1,8(,R13)
         LR    R13,R1
         USING WA,R13
         GETMAIN VRC,LV=(65536,4096),SP=4
         IF    (LTR,R15,R15,Z)
           ST    R1,BUFADDR            what we got,
           ST    R0,BUFLEN             and how much
           LR    R9,R1
         ELSE
           WTO   'VARBUFS: NO BUFFERS',ROUTCDE=11
           J     GIVEUP
         ENDIF
         LR    R4,R0
         SRL   R4,12                   in pages
         L     R1,BUFADDR
         L     R0,BUFLEN
         FREEMAIN RU,LV=(0),A=(1),SP=4
         GETMAIN VRU,LV=(MOST,LEAST),SP=5,BNDRY=PAGE
         STM   R0,R1,HELD              length, address
         GETMAIN RC,LV=512,SP=6
         IF    (LTR,R15,R15,NZ)
           J     FREEV
         ENDIF
         ST    R1,CTL
         L     R8,CTL
         XC    0(256,R8),0(R8)
         L     R1,CTL
         FREEMAIN RC,LV=512,A=(1),SP=6
         IF    (CHI,R15,NE,0)
           ABEND 101,DUMP
         ENDIF
FREEV    LM    R0,R1,HELD
         FREEMAIN RU,LV=(0),A=(1),SP=5
         STORAGE OBTAIN,LENGTH=(MOST,LEAST),COND=YES,                  X
               ADDR=IOB,LOC=24,SP=9
         CIJE  R15,4,GIVEUP
         LR    R7,R0
         L     R2,IOB
         STORAGE RELEASE,LENGTH=(R7),ADDR=(R2),SP=9
         LHI   R2,LEAST
         LHI   R3,MOST
         STORAGE OBTAIN,LENGTH=((R3),(R2)),ADDR=(R10),SP=9
         LR    R7,R0
         STORAGE RELEASE,LENGTH=(R7),ADDR=(R10),SP=9
GIVEUP   LR    R1,R13
         L     R13,4(,R13)
         FREEMAIN RU,LV=WALEN,A=(1)
         RETURN (14,12),RC=0
DATA     DS    0D
LEAST    EQU   2*1024
MOST     EQU   32*1024
         LTORG ,
WA       DSECT
SAVE     DS    18F
BUFADDR  DS    A
BUFLEN   DS    F
HELD     DS    2F
CTL      DS    A
IOB      DS    A
         DS    0D
WALEN    EQU   *-WA
         END   VARBUFS
