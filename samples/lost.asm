// The comment before the brace is lost: the formatter prints the brace without it.
start: ldx #3
.loop 4 /* four times */ {
dex // this one stays
}
rts
