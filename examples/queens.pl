% query: queens(6,Rows)
% All ways of placing queens on a board so that none attacks another one. Each column holds one queen, and the answer lists
% their rows. The columns are filled one after the other; the rows that are left are handed on, so that only diagonals have
% to be compared.

:- entry(queens(ground,out)).

queens(N,Rows) :- rows(N,Free), place(Free,[],Rows).

rows(N,Rows) :- rows(1,N,Rows).

rows(N,N,[N]) :- !.
rows(K,N,[K|Rows]) :- K < N, Next is K + 1, rows(Next,N,Rows).

place([],Placed,Placed).
place(Free,Placed,Rows) :-
    take(Row,Free,Rest),
    safe(Placed,Row,1),
    place(Rest,[Row|Placed],Rows).

take(X,[X|Rest],Rest).
take(X,[Y|Rest],[Y|Left]) :- take(X,Rest,Left).

safe([],_,_).
safe([Other|Placed],Row,Distance) :-
    Other =\= Row + Distance,
    Other =\= Row - Distance,
    Next is Distance + 1,
    safe(Placed,Row,Next).
