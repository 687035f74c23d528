SORTTAB  TITLE 'Sorts the table of volumes, and prints it'
         COPY  ASMMSP                  structured programming macros
SORTTAB  CSECT
SORTTAB  AMODE 31
SORTTAB  RMODE 31
R0       EQU   0
R1       EQU   1
R2       EQU   2
R3       EQU   3
R4       EQU   4
R5       EQU   5
R6       EQU   6
R7       EQU   7
R8       EQU   8
R9       EQU   9
R10      EQU   10
R11      EQU   11
R12      EQU   12
R13      EQU   13
R14      EQU   14
R15      EQU   15
         SAVE  (14,12),,*
         LR    R12,R15
         USING SORTTAB,R12
         STORAGE OBTAIN,LENGTH=DSALEN,LOC=24        a DCB is in it
         ST    R1,8(,R13)
         ST    R13,4(,R1)
         LR    R13,R1
         USING DSA,R13
         LA    R2,MAXVOLS
         MHI   R2,ENTLEN
         GETMAIN RU,LV=(R2),SP=7,BNDRY=PAGE,LOC=(ANY,ANY)
         ST    R1,TABLE
         ST    R2,TABLEN
         L     R8,TABLE
         USING ENTRY,R8
         DO    FROM=(R5,MAXVOLS)
           MVC   ENTVOL,=CL6' '
           XC    ENTCNT,ENTCNT
           LA    R8,ENTLEN(,R8)
         ENDDO
         DROP  R8
         MVI   SWAPPED,1
         DO    WHILE=(CLI,SWAPPED,NE,0)
           MVI   SWAPPED,0
           L     R8,TABLE
           L     R5,ENTRIES
           DO    WHILE=(CHI,R5,GT,1)
             IF    (CLC,0(6,R8),GT,ENTLEN(R8)) THEN
               XC    0(ENTLEN,R8),ENTLEN(R8)
               XC    ENTLEN(ENTLEN,R8),0(R8)
               XC    0(ENTLEN,R8),ENTLEN(R8)
               MVI   SWAPPED,1
             ENDIF
             LA    R8,ENTLEN(,R8)
             BCTR  R5,0
           ENDDO
         ENDDO
         LA    R3,PAGELINE
         DO    UNTIL=(CLI,ATEND,EQ,1)
           STORAGE OBTAIN,LENGTH=(R3),SP=8,ADDR=LINEPTR
           L     R9,LINEPTR
           BRAS  R14,FORMAT
           L     R9,LINEPTR
           STORAGE RELEASE,LENGTH=PAGELINE,SP=8,ADDR=(R9)
         ENDDO
         IF    (TM,OPTIONS,KEEPTAB,Z)
           L     R2,TABLEN
           L     R1,TABLE
           FREEMAIN RU,LV=(R2),A=(R1),SP=7
         ELSE
           L     R1,TABLE
           L     R4,PUBLISH
           ST    R1,0(,R4)
         ENDIF
         STORAGE RELEASE,SP=8
         LR    R1,R13
         L     R13,4(,R13)
         STORAGE RELEASE,LENGTH=DSALEN,ADDR=(1)
         RETURN (14,12),T,RC=0
FORMAT   DS    0H
         MVC   0(PAGELINE,R9),=CL(PAGELINE)' '
         MVI   ATEND,1
         BR    R14
PUBLISH  DC    A(0)
ENTRIES  DC    F'250'
OPTIONS  DC    X'00'
KEEPTAB  EQU   X'80'
MAXVOLS  EQU   400
PAGELINE EQU   132
         LTORG
DSA      DSECT
         DS    18F
TABLE    DS    A
TABLEN   DS    F
LINEPTR  DS    A
SWAPPED  DS    X
ATEND    DS    X
DSALEN   EQU   *-DSA
ENTRY    DSECT
ENTVOL   DS    CL6
ENTCNT   DS    H
ENTSIZE  DS    FD
ENTLEN   EQU   *-ENTRY
         END
