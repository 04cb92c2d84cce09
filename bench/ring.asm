; A ring of SIZE actors and the first one. A number goes round, one less at each actor, from COUNT to 0.
; A message is 8 instructions, 6 quads and 1 event.
.export boot
boot:
    push SIZE
    my self             ; how many are to be made, and the last one made
more:
    push pass
    actor create        ; an actor whose state is the next one
    roll 2
    push -1
    alu add
    roll 2
    pick 2
    if more
    dup 1
    push pass
    actor become        ; the first actor closes the ring
    push COUNT
    roll 2
    actor send
    end commit
pass:
    msg 0
    if on
    end commit
on:
    msg 0
    push -1
    alu add
    state 0
    actor send
    end commit
