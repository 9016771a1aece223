% query: bench(100000)
% Symbolic differentiation: clauses that are told apart by the functor of their first argument, and terms that are made.

:- entry(bench(ground)).

bench(0).
bench(N) :- N > 0, \+ \+ round, M is N - 1, bench(M).

round :-
    d(x*x*x*(x+1)*(x+2)*(x+3),_),
    d(exp(exp(log(x*log(x+7)))),_),
    d(((x/(x+1))/(x+2))/((x+3)/x),_),
    d(sin(x)*cos(x)*sin(2*x)-exp(x*x*x),_).

d(U+V,DU+DV) :- d(U,DU), d(V,DV).
d(U-V,DU-DV) :- d(U,DU), d(V,DV).
d(U*V,DU*V+U*DV) :- d(U,DU), d(V,DV).
d(U/V,(DU*V-U*DV)/(V*V)) :- d(U,DU), d(V,DV).
d(exp(U),exp(U)*DU) :- d(U,DU).
d(log(U),DU/U) :- d(U,DU).
d(sin(U),cos(U)*DU) :- d(U,DU).
d(cos(U),-(sin(U)*DU)) :- d(U,DU).
d(x,1).
d(1,0).
d(2,0).
d(3,0).
d(7,0).
