; A deque: two items put at the back, one pushed at the front, and all of them popped.
;
; ./humus exec examples/deque.asm
.export boot
boot:
    deque new
    push 1
    deque put
    push 2
    deque put
    push 0
    deque push
more:
    deque pop           ; deque item
    state 1
    actor send          ; prints the item
    dup 1
    deque len
    if more
    end commit
