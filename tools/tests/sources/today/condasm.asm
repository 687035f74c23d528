         GBLC  &SYSTYPE
         LCLA  &PAGES,&BYTES
         LCLC  &SP
&PAGES   SETA  8
&BYTES   SETA  &PAGES*4096
&SP      SETC  '12'
&SYSTYPE SETC  'PROD'
         MACRO
&LAB     PROLOG &REG=12,&WORK=
&LAB     BAKR  14,0
         BASR  &REG,0
         USING *,&REG
         AIF   ('&WORK' EQ '').NOWORK
         STORAGE OBTAIN,LENGTH=&WORK,LOC=31
         LR    13,1
.NOWORK  ANOP
         MEND
         MACRO
&LAB     LOGIT &TEXT
&LAB     LA    1,=CL40&TEXT
         L     15,=V(LOGGER)
         BASR  14,15
         MEND
CONDASM  CSECT
CONDASM  AMODE 31
CONDASM  RMODE 31
         PROLOG REG=12
         STORAGE OBTAIN,LENGTH=WALEN,LOC=(31,PAGEFRAMESIZE1MB)
         LR    13,1
         USING WA,13
         STORAGE OBTAIN,LENGTH=&BYTES,SP=&SP,ADDR=BUFFER
         STORAGE OBTAIN,LENGTH=&PAGES*64,SP=&SP,ADDR=INDEX
         AIF   ('&SYSTYPE' EQ 'PROD').PROD
         STORAGE OBTAIN,LENGTH=65536,SP=99,ADDR=TRACE
         LOGIT 'TRACE IS ON'
         AGO   .TRACED
.PROD    ANOP
         STORAGE OBTAIN,LENGTH=4096,SP=99,ADDR=TRACE
.TRACED  ANOP
         LOGIT 'STARTED'
         L     2,BUFFER
         L     3,INDEX
         LHI   4,&PAGES
         IF    (CLI,MODE,EQ,C'X'),THEN
           LOGIT 'MODE X'
           GETMAIN RU,LV=EXTLEN,SP=&SP
           ST    1,EXTRA
           L     5,EXTRA
           MVC   0(8,5),=CL8'EXTENDED'
           LOGIT 'EXTRA AREA'
           L     1,EXTRA
           FREEMAIN RU,LV=EXTLEN,A=(1),SP=&SP
         ENDIF
         DO    FROM=(4)
           LA    2,1024(,2)
           LA    2,3072(,2)
         ENDDO
         L     2,BUFFER
         STORAGE RELEASE,LENGTH=&BYTES,SP=&SP,ADDR=(2)
         L     3,INDEX
         STORAGE RELEASE,LENGTH=&PAGES*64,SP=&SP,ADDR=(3)
         STORAGE RELEASE,SP=99
         AIF   (T'&DEBUG EQ 'O').NODEBUG
         LOGIT 'DEBUG'
.NODEBUG ANOP
         LOGIT 'STOPPED'
         LR    2,13
         STORAGE RELEASE,LENGTH=WALEN,ADDR=(2)
         SR    15,15
         PR
MODE     DC    C'N'
EXTLEN   EQU   &PAGES*1024
         LTORG
WA       DSECT
         DS    18F
BUFFER   DS    A
INDEX    DS    A
TRACE    DS    A
EXTRA    DS    A
         ORG   ,
         DS    0D
WALEN    EQU   *-WA
         END   CONDASM
