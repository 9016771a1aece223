% query: bench(19)
% Each of 10,000 facts looked up by its first argument, and the values summed. The facts t(1,V) to t(10000,V) are put behind
% this text by `compare`.

:- entry(bench(ground)).

bench(0).
bench(N) :- N > 0, \+ \+ round, M is N - 1, bench(M).

round :- sum(10000,0,_).

sum(0,S,S).
sum(I,A,S) :- I > 0, t(I,V), B is A + V, J is I - 1, sum(J,B,S).

