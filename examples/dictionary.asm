; A dictionary: what is found, what is there, and what is left.
;
; ./humus exec examples/dictionary.asm
.export boot
boot:
    push #nil           ; the empty dictionary
    push 1
    push 10
    dict add
    push 2
    push 20
    dict add
    push 1
    push 11
    dict set            ; 1 now has 11
    dup 1
    push 1
    dict get
    state 1
    actor send          ; 11
    dup 1
    push 3
    dict has
    state 1
    actor send          ; FALSE
    push 2
    dict del
    push 2
    dict get
    state 1
    actor send          ; ?
    end commit
