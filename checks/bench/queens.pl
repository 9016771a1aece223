% query: bench(40)
% All 92 ways of placing eight queens, by going back.

:- entry(bench(ground)).

bench(0).
bench(N) :- N > 0, \+ round, M is N - 1, bench(M).

round :- place([1,2,3,4,5,6,7,8],[],_), fail.

place([],Placed,Placed).
place([F|Free],Placed,Rows) :-
    take(Row,[F|Free],Rest),
    safe(Placed,Row,1),
    place(Rest,[Row|Placed],Rows).

take(X,[X|Rest],Rest).
take(X,[Y|Rest],[Y|Left]) :- take(X,Rest,Left).

safe([],_,_).
safe([Other|Placed],Row,Distance) :-
    Other =\= Row + Distance,
    Other =\= Row - Distance,
    Next is Distance + 1,
    safe(Placed,Row,Next).
