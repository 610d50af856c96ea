MOV %00,#0000
MOV %01,#0001
MOV %02,#0002
MOV %03,#0003
MOV %06,#0000
MOV %08,#0010
MOV %09,#0000
stops: JSR seek
JSR measure
ADD %08,#0010
ADD %09,#0001
CMP %09,#0004,S
JMP stops,LT
MOVIO @%03,%06
halt: JMP halt

seek:
MOVIO @%00,#0001
MOV %04,#0000
wait: MOVIO %04,@%01
CMP %04,%08,S
JMP wait,LT
MOVIO @%00,#0000
RET

measure:
JSR read
MOV @%09,%05
CMP %06,%05,S
JMP keep,GE
MOV %06,%05
keep: RET

read:
MOVIO %05,@%02
TST %05,%05,S
JMP done,NZ
JSR read
done: RET
