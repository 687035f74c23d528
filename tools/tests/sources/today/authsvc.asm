AUTHSVC  TITLE 'AUTHSVC - installs a common block, with an ARR'
AUTHSVC  CSECT
AUTHSVC  AMODE 31
AUTHSVC  RMODE ANY
         IEABRCX DEFINE
         YREGS
         BAKR  R14,0
         LARL  R12,STATICS
         USING STATICS,R12
         MODESET KEY=ZERO,MODE=SUP
         STORAGE OBTAIN,LENGTH=WRKLEN,SP=229,KEY=8,LOC=(31,64),        X
               CALLRKY=NO
         LR    R13,R1
         USING WRK,R13
         MVC   WRKSAVE+4(4),=C'F1SA'
         XC    WRKPTRS(WRKPTRL),WRKPTRS
         STORAGE OBTAIN,LENGTH=CBLEN,SP=228,KEY=0,LOC=(31,64),         X
               ADDR=WRKCB,OWNER=SYSTEM
         L     R2,WRKCB
         USING CB,R2
         MVC   CBID,=C'AUTH'
         STORAGE OBTAIN,LENGTH=TRCLEN,SP=241,KEY=0,LOC=(31,64),        X
               COND=YES,OWNER=SYSTEM
         IF    (LTR,R15,R15,Z)
           ST    R1,CBTRACE
           ST    R1,WRKTRC
           LR    R3,R1
           XC    0(16,R3),0(R3)
         ELSE
           OI    CBFLAG,CBNOTRC
         ENDIF
         LHI   R4,1024
         LHI   R5,230
         STORAGE OBTAIN,LENGTH=(R4),SP=(R5),ADDR=(R6),LOC=(31,64)
         ST    R6,WRKMSG
         SELECT
         WHEN  (CLI,FUNCTION,EQ,C'I')
           L     R7,CBUSE
           AHI   R7,1
           ST    R7,CBUSE
         WHEN  (CLI,FUNCTION,EQ,C'T')
           TM    CBFLAG,CBNOTRC
           JO    NOTRC
           L     R3,WRKTRC
           STORAGE RELEASE,LENGTH=TRCLEN,SP=241,ADDR=(R3),KEY=0
NOTRC      DS    0H
         OTHRWISE
           LHI   R7,SMALLTRC
           STORAGE OBTAIN,LENGTH=(R7),SP=241,LOC=(31,64),              X
               ADDR=WRKTRC2,OWNER=SYSTEM
           L     R8,WRKTRC2
           STORAGE RELEASE,LENGTH=(R7),SP=241,ADDR=(R8)
         ENDSEL
         L     R6,WRKMSG
         LHI   R5,230
         STORAGE RELEASE,LENGTH=1024,SP=(R5),ADDR=(R6)
         L     R2,WRKCB
         LA    R0,CBLEN
         STORAGE RELEASE,LENGTH=(R0),SP=228,ADDR=(R2),KEY=0
         DROP  R2
         LR    R2,R13
         STORAGE RELEASE,LENGTH=WRKLEN,SP=229,ADDR=(R2),KEY=8
         MODESET KEY=NZERO,MODE=PROB
         XR    R15,R15
         PR
STATICS  DS    0D
FUNCTION DC    C'I'
TRCLEN   EQU   64*1024-4096
SMALLTRC EQU   8192
         LTORG
WRK      DSECT
WRKSAVE  DS    18F
WRKPTRS  DS    0F
WRKCB    DS    A
WRKTRC   DS    A
WRKTRC2  DS    A
WRKMSG   DS    A
WRKPTRL  EQU   *-WRKPTRS
         DS    0D
WRKLEN   EQU   *-WRK
CB       DSECT
CBID     DS    CL4
CBFLAG   DS    X
CBNOTRC  EQU   X'80'
         DS    XL3
CBTRACE  DS    A
CBUSE    DS    F
CBEND    DS    0D
CBLEN    EQU   CBEND-CB
         END   AUTHSVC
