% query: hanoi(4,Moves)
% The tower of Hanoi: each move of a disc is written down, and the answer counts the moves.

:- entry(hanoi(ground,out)).

hanoi(Discs,Moves) :- move(Discs,left,right,middle,0,Moves).

move(0,_,_,_,Moves,Moves) :- !.
move(Disc,From,To,Over,Before,After) :-
    Smaller is Disc - 1,
    move(Smaller,From,Over,To,Before,Between),
    write(disc(Disc)), write(': '), write(From), write(' -> '), write(To), nl,
    Next is Between + 1,
    move(Smaller,Over,To,From,Next,After).
