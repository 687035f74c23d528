* OLDSERV - storage service of the 1980s: form R, register 0, SP in its
* high-order byte.  Called by BALR 14,15; function code in R2.
OLDSERV  CSECT
         USING *,15
         STM   14,12,12(13)
         LR    12,15
         DROP  15
         USING OLDSERV,12
         L     0,=AL1(1,0,0,WRKLEN)     subpool 1, our save area
         GETMAIN R,LV=(0)
         ST    13,4(,1)
         ST    1,8(,13)
         LR    13,1
         USING WRK,13
         L     0,SPLEN                  subpool 10, 72 bytes
         GETMAIN R,LV=(0)
         ST    1,QEL
         L     0,=F'256'                subpool 0
         GETMAIN R,LV=(0)
         ST    1,BUF
         LA    0,LISTLEN                the same by LA
         GETMAIN R,LV=(0)
         ST    1,LST
         L     0,=A(LISTLEN+X'0B000000')
         GETMAIN R,LV=(0)               subpool 11
         ST    1,LST2
         LA    3,400
         GETMAIN R,LV=(3),SP=2          a length in another register
         LR    6,1
         GETMAIN R,LV=4096
         LR    7,1
         CLI   FUNC,C'F'
         BNE   KEEP
         L     1,BUF
         L     0,=F'256'
         FREEMAIN R,LV=(0),A=(1)
         L     1,QEL
         L     0,SPLEN
         FREEMAIN R,LV=(0),A=(1)
         L     1,LST
         FREEMAIN R,LV=LISTLEN,A=(1)
         L     1,LST2
         L     0,=A(LISTLEN+X'0B000000')
         FREEMAIN R,LV=(0),A=(1)
KEEP     LR    1,6
         FREEMAIN R,LV=400,A=(1),SP=2
         FREEMAIN R,LV=4096,A=(7)
         L     0,=X'0A000000'           all of subpool 10
         FREEMAIN R,LV=(0)
         LH    3,0(,2)                  the caller's length
         GETMAIN R,LV=(3)
         LR    1,13
         L     13,4(,13)
         L     0,=AL1(1,0,0,WRKLEN)
         FREEMAIN R,LV=(0),A=(1)
         LM    14,12,12(13)
         SR    15,15
         BR    14
FUNC     DC    C'F'
SPLEN    DC    0F'0',AL1(10),AL3(72)
LISTLEN  EQU   128
         LTORG
WRK      DSECT
SAVE     DS    18F
QEL      DS    A
BUF      DS    A
LST      DS    A
LST2     DS    A
         DS    0D
WRKLEN   EQU   *-WRK
         END
