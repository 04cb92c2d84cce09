; Two sponsors. The boot event makes a child sponsor with 1,000 quads and 50 cycles, starts it with itself as the
; controller, and posts a message under it to an actor that never ends. When the child has run out of cycles, its signal
; comes back to the first actor, which prints the signal's number: 3, for cycles.
;
; ./humus exec examples/spin.asm
.export boot
boot:
    sponsor new         ; child
    push 1000
    sponsor memory      ; the child gets 1,000 quads
    push 50
    sponsor cycles      ; and 50 cycles
    dup 1
    my self
    sponsor start       ; when it runs out, this actor is told
    push 0              ; child 0
    roll -2             ; 0 child: the message, below the sponsor
    push #nil
    push spin
    actor create        ; 0 child spinner
    roll 2              ; 0 spinner child
    actor post
    my state
    push ctl
    actor become        ; the next message is the signal
    end commit
ctl:
    msg 0
    state 1
    actor send          ; the signal's number, to println
    end commit
spin:
    debug
    ref spin
