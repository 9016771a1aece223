% query: bench(40000)
% Naive reverse of a list of 30 elements: 496 calls a round.

:- entry(bench(ground)).

bench(0).
bench(N) :- N > 0, \+ \+ round, M is N - 1, bench(M).

round :- nrev([1,2,3,4,5,6,7,8,9,10,11,12,13,14,15,16,17,18,19,20,21,22,23,24,25,26,27,28,29,30],_).

nrev([],[]).
nrev([H|T],R) :- nrev(T,S), app(S,[H],R).

app([],L,L).
app([H|T],L,[H|R]) :- app(T,L,R).
