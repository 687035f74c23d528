SERVER   TITLE 'SERVER - main task: workers, queue elements, recovery'
SERVER   CSECT
SERVER   AMODE 31
SERVER   RMODE ANY
         BAKR  14,0
         LR    12,15
         USING SERVER,12
         LA    0,DYNLEN
         STORAGE OBTAIN,LENGTH=(0),SP=0,LOC=ANY
         LR    13,1
         USING DYN,13
         MVC   SAVE+4(4),=C'F1SA'
         XC    TCB1,TCB1
         XC    TCB2,TCB2
         ESTAEX RECOVERY,PARAM=(13),MF=(E,ESTAEL)
         LTR   15,15
         BNZ   LEAVE
         CPOOL BUILD,PCELLCT=64,SCELLCT=32,CSIZE=QELLEN,SP=20,         X
               LOC=(31,31),CPID=QCPID,HDR='SERVER QUEUE ELEMENTS'
         STORAGE OBTAIN,LENGTH=COMMLEN,SP=21,ADDR=COMM
         MVC   ATTL(ATTMODLN),ATTMOD
         L     2,COMM
         ST    2,PARMS
         OI    PARMS,X'80'
         ATTACHX EP=WORKER,ECB=ECB1,SHSPV=20,SZERO=YES,                X
               MF=(E,PARMS),SF=(E,ATTL)
         LTR   15,15
         BNZ   NOWORK
         ST    1,TCB1
         ATTACHX EP=WRITER,ECB=ECB2,SHSPV=21,SZERO=NO,                 X
               MF=(E,PARMS),SF=(E,ATTL)
         LTR   15,15
         BNZ   NOWORK
         ST    1,TCB2
         LA    4,REQUESTS
         DO    FROM=(4)
           CPOOL GET,U,CPID=QCPID,CELL=(6),REGS=SAVE
           USING QEL,6
           ST    4,QELNUM
           XC    QELNEXT,QELNEXT
           DROP  6
           LR    1,6
           L     15,=V(ENQUEUE)
           BASR  14,15
         ENDDO
         WAIT  1,ECBLIST=ECBS
         IF    (TM,ECB1,X'40',O)
           L     1,TCB1
           ST    1,WTCB
           DETACH WTCB
           XC    TCB1,TCB1
         ELSE
           STORAGE OBTAIN,LENGTH=256,SP=21
           LR    5,1
           MVC   0(8,5),=C'STILL UP'
           STORAGE RELEASE,LENGTH=256,SP=21,ADDR=(5)
         ENDIF
         CPOOL GET,C,CPID=QCPID,CELL=(6)
         IF    (LTR,15,15,Z)
           CPOOL FREE,CPID=QCPID,CELL=(6)
         ENDIF
NOWORK   L     2,COMM
         STORAGE RELEASE,LENGTH=COMMLEN,SP=21,ADDR=(2)
         CPOOL DELETE,CPID=QCPID
         ESTAEX 0
         DETACH TCB2
LEAVE    LR    1,13
         STORAGE RELEASE,LENGTH=DYNLEN,SP=0,ADDR=(1)
         SR    15,15
         PR
RECOVERY DS    0H                      recovery exit
         LTR   0,0
         SETRP RC=0
         BR    14
ATTMOD   ATTACHX SF=L
ATTMODLN EQU   *-ATTMOD
ECBS     DC    A(0),A(X'80000000')
REQUESTS EQU   10
         LTORG
DYN      DSECT
SAVE     DS    18F
QCPID    DS    F
COMM     DS    A
PARMS    DS    A
TCB1     DS    A
TCB2     DS    A
WTCB     DS    A
ECB1     DS    F
ECB2     DS    F
ESTAEL   ESTAEX MF=L
ATTL     DS    XL(ATTMODLN)
COMMLEN  EQU   1024
         DS    0D
DYNLEN   EQU   *-DYN
QEL      DSECT
QELNEXT  DS    A
QELNUM   DS    F
QELDATA  DS    CL120
QELLEN   EQU   *-QEL
         END   SERVER
