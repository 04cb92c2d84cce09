; A ring of four actors. A number goes round, one less at each actor; the one that gets 0 prints it.
;
; ./humus exec examples/ring.asm lanes=4 seed=7
.export boot
boot:
    push 3
    my self             ; how many are to be made, and the last one made
more:
    state 1
    roll 2
    pair 1              ; a state: the next actor, and println as its tail
    push pass
    actor create
    roll 2
    push -1
    alu add
    roll 2
    pick 2
    if more
    dup 1
    state 1
    roll 2
    pair 1
    push pass
    actor become        ; the first actor closes the ring
    push 1000
    roll 2
    actor send
    end commit
pass:
    msg 0
    if on
    msg 0
    state -1            ; println
    actor send
    end commit
on:
    msg 0
    push -1
    alu add
    state 1
    actor send
    end commit
