; COUNT messages under a sponsor that is never started, and one event that goes on for ever.
.export boot
boot:
    sponsor new
    push COUNT
more:
    push #nil
    my self
    pick 4
    actor post          ; to this actor, under the stopped sponsor
    push -1
    alu add
    dup 1
    if more
    push #nil
    push spin
    actor become
    push #nil
    my self
    actor send          ; the message that goes on for ever
    end commit
spin:
    debug
    ref spin
