/*
 Lesson 1: a coloured border
 Type it in, run it, then change the delay.
*/
.const border = $d020 // the border's colour register
.const delay = 8 /* how long each colour stays */

// A macro saves typing the same lines twice.
.macro wait(times) {
ldx #times // the outer count
outer: {
ldy #0
inner: {
dey // 256 turns
bne inner }
dex
bne outer
}
}

* = $c000
start: sei // nobody disturbs us
lda #0
next: {
sta border /* show it */
wait(delay)
clc
adc #1
cmp #16 // sixteen colours
bne next
}
ldx #$00
print: {
lda text,x // one letter after the other
beq done
jsr $ffd2
inx
jmp print
}
done: cli
rts

// Three ways to write a number: decimal, hexadecimal, binary.
table: .byte 1, $02, %11 /* three */
vector: .word start, done
text: .text "hello, reader"
.byte 0
.if delay > 4 {
// a slow machine
nop
} else {
rts // a fast one
}
.loop 3 {
asl
}
