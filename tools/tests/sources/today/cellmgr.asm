CELLMGR  TITLE 'CELLMGR - cell pools of three sizes'
CELLMGR  CSECT
CELLMGR  AMODE 31
CELLMGR  RMODE ANY
         IEABRCX DEFINE
         YREGS
         SAVE  (14,12),,CELLMGR-&SYSDATC
         LARL  R12,STATIC
         USING STATIC,R12
         LR    R11,R1
         STORAGE OBTAIN,LENGTH=GWALEN,SP=0,LOC=31,BNDRY=PAGE,          X
               ADDR=(R10)
         USING (GWA,GWAEND),R10
         ST    R13,GWASAVE+4
         LR    R13,R10
         LHI   R2,SMALL
         LHI   R3,4*SMALLCT
         CPOOL BUILD,PCELLCT=SMALLCT,SCELLCT=SMALLCT,CSIZE=(R2),       X
               SP=31,CPID=SMALLID,LOC=(31,64)
         CPOOL BUILD,PCELLCT=(R3),CSIZE=MEDIUM,SP=31,CPID=MEDIUMID,    X
               HDR='MEDIUM CELLS',LOC=(31,64)
         L     R4,=F'4096'
         CPOOL BUILD,PCELLCT=4,SCELLCT=2,CSIZE=(R4),SP=32,CPID=(R5),   X
               LOC=(31,64)
         ST    R5,LARGEID
         DO    INF
           L     R6,0(,R11)            next request
           DOEXIT (LTR,R6,R6,Z)
           LA    R11,4(,R11)
           USING REQUEST,R6
           CASENTRY R7
             CASE 0                    small
               CPOOL GET,U,CPID=SMALLID,CELL=(R8)
               ST    R8,REQCELL
               CPOOL FREE,CPID=SMALLID,CELL=(R8)
             CASE 1                    medium
               CPOOL GET,C,CPID=MEDIUMID,CELL=(R8)
               IF    (LTR,R15,R15,NZ)
                 MVI   REQRC,4
               ELSE
                 ST    R8,REQCELL
                 CPOOL FREE,CPID=MEDIUMID,CELL=(R8)
               ENDIF
             CASE 2                    large
               L     R5,LARGEID
               CPOOL GET,CPID=(R5),CELL=(R8)
               ST    R8,REQCELL
               ST    R8,GWALAST
             CASE 3                    too large for a cell
               LHI   R9,3*4096
               STORAGE OBTAIN,LENGTH=(R9),SP=33,ADDR=GWABIG,BNDRY=PAGE
               L     R8,GWABIG
               MVC   0(L'EYECATCH,R8),EYECATCH
               STORAGE RELEASE,LENGTH=(R9),SP=33,ADDR=(R8)
           ENDCASE
           DROP  R6
         ENDDO
         CPOOL DELETE,CPID=SMALLID
         CPOOL DELETE,CPID=MEDIUMID
         L     R5,LARGEID
         CPOOL DELETE,CPID=(R5)
         STORAGE RELEASE,SP=33
         LR    R1,R13
         L     R13,4(,R13)
         STORAGE RELEASE,LENGTH=GWALEN,SP=0,ADDR=(R1)
         RETURN (14,12),RC=0
STATIC   DS    0D
EYECATCH DC    C'CELLMGR.BIG'
SMALL    EQU   64
SMALLCT  EQU   16
MEDIUM   EQU   256
         LTORG
GWA      DSECT
GWASAVE  DS    18F
SMALLID  DS    F
MEDIUMID DS    F
LARGEID  DS    F
GWABIG   DS    A
GWALAST  DS    A
         DS    0D
GWAEND   EQU   *
GWALEN   EQU   GWAEND-GWA
REQUEST  DSECT
REQTYPE  DS    X
REQRC    DS    X
         DS    H
REQCELL  DS    A
         END
