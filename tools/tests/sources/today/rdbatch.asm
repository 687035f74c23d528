RDBATCH  TITLE 'RDBATCH - reads a file, and counts its keys'
         PRINT NOGEN
RDBATCH  CSECT
RDBATCH  AMODE 31
RDBATCH  RMODE 24
         YREGS
         BAKR  R14,0
         BASR  R12,0
         USING *,R12
         LA    R13,SAVEAREA
         MVC   SAVEAREA+4(4),=C'F1SA'
         STORAGE OBTAIN,LENGTH=DCBLEN+DCBELN,LOC=BELOW,ADDR=(R10)
         MVC   0(DCBLEN,R10),INDCB
         MVC   DCBLEN(DCBELN,R10),INDCBE
         OPEN  ((R10),(INPUT)),MF=(E,OPENL),MODE=31
         IF    (TM,48(R10),X'10',NO)   not opened
           WTO   'RDBATCH: NO INPUT'
           LHI   R5,8
           J     RETURN
         ENDIF
         LH    R4,82(,R10)             DCBLRECL: as the file has it
         STORAGE OBTAIN,LENGTH=(R4),ADDR=RECBUF,LOC=31,SP=3
         LA    R3,TABBYTES             the table of keys
         STORAGE OBTAIN,LENGTH=(R3),ADDR=TABADR,LOC=31,SP=2,COND=YES
         IF    (LTR,R15,R15,NZ)
           WTO   'RDBATCH: NO TABLE'
           LHI   R5,12
           J     CLOSEIN
         ENDIF
         L     R8,TABADR
         LR    R0,R8                   to zeros
         LA    R1,TABBYTES
         XR    R15,R15
         MVCL  R0,R14
READ     DS    0H
         GET   (R10)
         LR    R2,R1
         USING RECORD,R2
         XR    R7,R7
         IC    R7,RECKEY
         MHI   R7,SLOTLEN
         L     R9,TABADR
         LA    R9,0(R7,R9)
         LHI   R1,1
         A     R1,0(,R9)
         ST    R1,0(,R9)
         J     READ
EOF      DS    0H                      end of file: EODAD
         STORAGE OBTAIN,LENGTH=PRTLEN,LOC=24,ADDR=(R6)
         MVC   0(PRTLEN,R6),PRTLINE
         L     R8,TABADR
         UNPK  5(9,R6),0(5,R8)
         PUT   OUTDCB,(R6)
         STORAGE RELEASE,LENGTH=PRTLEN,ADDR=(R6)
         XR    R5,R5
         L     R1,TABADR
         STORAGE RELEASE,LENGTH=TABBYTES,ADDR=(R1),SP=2
CLOSEIN  CLOSE ((R10)),MF=(E,OPENL),MODE=31
         STORAGE RELEASE,SP=3
RETURN   DS    0H
         STORAGE RELEASE,LENGTH=DCBLEN+DCBELN,ADDR=(R10)
         LR    R15,R5
         PR
RDDATA   LOCTR
SAVEAREA DS    18F
OPENL    DC    XL8'8000000000000000'
RECBUF   DC    A(0)
TABADR   DC    A(0)
PRTLINE  DC    CL5'KEY',CL128' '
PRTLEN   EQU   *-PRTLINE
INDCB    DCB   DSORG=PS,MACRF=GL,DDNAME=INPUT,DCBE=INDCBE
DCBLEN   EQU   *-INDCB
RDBATCH  LOCTR
         LTORG
RDDATA   LOCTR
INDCBE   DCBE  EODAD=EOF,RMODE31=BUFF
DCBELN   EQU   *-INDCBE
OUTDCB   DCB   DSORG=PS,MACRF=PM,DDNAME=REPORT
SLOTS    EQU   256
SLOTLEN  EQU   12
TABBYTES EQU   SLOTS*SLOTLEN
RECORD   DSECT
RECKEY   DS    X
RECDATA  DS    XL79
         END   RDBATCH
