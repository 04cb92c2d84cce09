; Counts down from COUNT to 0 in one event. A round is 4 instructions and 3 quads.
.export boot
boot:
    push COUNT
round:
    push -1
    alu add
    dup 1
    if round
    end commit
