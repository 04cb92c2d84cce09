; An event that goes on for ever, and COUNT - 1 messages behind it to the same actor.
.export boot
boot:
    push #nil
    push spin
    actor create
    push COUNT
more:
    push #nil
    pick 3
    actor send
    push -1
    alu add
    dup 1
    if more
    end commit
spin:
    debug
    ref spin
