; A cache under a quota. It prints the square of each number that it gets, and keeps the squares in a dictionary: one
; that is there costs less than one that is not. A child sponsor pays for it, with 50 quads. When they are spent, the
; child's signal comes to the first actor, which prints it (1, for memory) and grants 50 more; the number whose event
; ran out is lost. Programs of the language make no sponsors, so this one is in assembly.
;
; ./humus exec examples/cache.asm
.export boot
boot:
    state 1
    push #nil
    pair 1              ; the cache's state: an empty dictionary, and println as its tail
    push square
    actor create        ; cache
    sponsor new
    push 100
    sponsor events
    push 1000
    sponsor cycles
    push 50
    sponsor memory      ; cache child
    dup 1
    my self
    sponsor start       ; when the child runs out, this actor is told
    dup 1
    state 1
    pair 1              ; this actor's next state: println, and the child as its tail
    push refill
    actor become
    push numbers        ; cache child numbers
more:
    part 1              ; cache child rest number
    pick 4
    pick 4
    actor post          ; the number, to the cache, under the child
    dup 1
    if more
    end commit
numbers:
    pair_t 3 n2
n2:
    pair_t 4 n3
n3:
    pair_t 3 n4
n4:
    pair_t 5 n5
n5:
    pair_t 4 n6
n6:
    pair_t 3 #nil
square:
    state 1
    msg 0
    dict has
    if hit
    state -1            ; println
    state 1             ; println dict
    msg 0               ; println dict number
    dup 1
    dup 1
    alu mul             ; println dict number square
    dup 1
    state -1
    actor send          ; prints the square
    dict add            ; println dict
    pair 1              ; the next state
    push square
    actor become
    end commit
hit:
    state 1
    msg 0
    dict get
    state -1
    actor send          ; prints the square that was kept
    end commit
refill:
    msg 0
    state 1
    actor send          ; the signal's number, to println
    state -1
    push 50
    sponsor memory
    my self
    sponsor start
    end commit
