% query: bench(40)
% The function of Takeuchi: 63,609 calls a round, with arithmetic in each.

:- entry(bench(ground)).

bench(0).
bench(N) :- N > 0, \+ \+ round, M is N - 1, bench(M).

round :- tak(18,12,6,_).

tak(X,Y,Z,R) :- X =< Y, !, R = Z.
tak(X,Y,Z,R) :-
    X1 is X - 1, Y1 is Y - 1, Z1 is Z - 1,
    tak(X1,Y,Z,A), tak(Y1,Z,X,B), tak(Z1,X,Y,C),
    tak(A,B,C,R).
