% query: tour(6,at(1,1))
% A knight visits each square of a board once. It always goes to the square with the fewest ways on; where that ends too early, it
% goes back to the next one. The board is written with the numbers of the moves.

:- entry(tour(ground,ground)).

tour(Size,Start) :-
    Squares is Size * Size,
    go(Squares,Size,[Start],Tour), !,
    draw(1,1,Size,Squares,Tour).

go(1,_,Tour,Tour) :- !.
go(Left,Size,[Square|Before],Tour) :-
    ways(Square,Size,[Square|Before],Ways),
    ranked(Ways,Size,[Square|Before],[],Ranked),
    member(_-Next,Ranked),
    Less is Left - 1,
    go(Less,Size,[Next,Square|Before],Tour).

% The squares that the knight can go to.
ways(Square,Size,Before,Ways) :-
    ways([by(1,2),by(2,1),by(2,-1),by(1,-2),by(-1,-2),by(-2,-1),by(-2,1),by(-1,2)],Square,Size,Before,Ways).

ways([],_,_,_,[]).
ways([by(DX,DY)|Moves],at(X,Y),Size,Before,[at(V,W)|Ways]) :-
    V is X + DX, V >= 1, V =< Size,
    W is Y + DY, W >= 1, W =< Size,
    \+ member(at(V,W),Before), !,
    ways(Moves,at(X,Y),Size,Before,Ways).
ways([_|Moves],Square,Size,Before,Ways) :- ways(Moves,Square,Size,Before,Ways).

% The squares with their numbers of ways on, the fewest first.
ranked([],_,_,Ranked,Ranked).
ranked([Square|Squares],Size,Before,Sofar,Ranked) :-
    ways(Square,Size,[Square|Before],Ways),
    length(Ways,0,N),
    insert(Sofar,N-Square,Next),
    ranked(Squares,Size,Before,Next,Ranked).

insert([],New,[New]).
insert([M-S|Others],N-T,[N-T,M-S|Others]) :- N < M, !.
insert([Other|Others],New,[Other|More]) :- insert(Others,New,More).

length([],N,N).
length([_|Xs],Sofar,N) :- Next is Sofar + 1, length(Xs,Next,N).

member(X,[X|_]).
member(X,[_|Rest]) :- member(X,Rest).

draw(_,Y,Size,_,_) :- Y > Size, !.
draw(X,Y,Size,Squares,Tour) :- X > Size, !, nl, Next is Y + 1, draw(1,Next,Size,Squares,Tour).
draw(X,Y,Size,Squares,Tour) :-
    number_of(Tour,at(X,Y),Squares,N),
    ( N < 10 -> write('  ') ; write(' ') ),
    write(N),
    Next is X + 1,
    draw(Next,Y,Size,Squares,Tour).

% The tour has its last square first.
number_of([Square|_],Square,N,N) :- !.
number_of([_|Squares],Square,Sofar,N) :- Next is Sofar - 1, number_of(Squares,Square,Next,N).
