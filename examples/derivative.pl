% query: derivative(x^3*sin(2*x) - (x+1)/x,x,D)
% Derives an expression for a variable by the rules of calculus, and makes the result plain: products with 0 and 1 vanish,
% constants are joined, and a power of 1 is left out.

:- entry(derivative(ground,ground,out)).

derivative(E,X,D) :- derive(E,X,Raw), plain(Raw,D).

derive(N,_,0) :- integer(N), !.
derive(X,X,1) :- !.
derive(Y,_,0) :- atom(Y), !.
derive(U+V,X,DU+DV) :- derive(U,X,DU), derive(V,X,DV).
derive(U-V,X,DU-DV) :- derive(U,X,DU), derive(V,X,DV).
derive(-U,X,-DU) :- derive(U,X,DU).
derive(U*V,X,DU*V+U*DV) :- derive(U,X,DU), derive(V,X,DV).
derive(U/V,X,(DU*V-U*DV)/V^2) :- derive(U,X,DU), derive(V,X,DV).
derive(U^N,X,N*U^M*DU) :- integer(N), M is N - 1, derive(U,X,DU).
derive(sin(U),X,cos(U)*DU) :- derive(U,X,DU).
derive(cos(U),X,-(sin(U)*DU)) :- derive(U,X,DU).
derive(exp(U),X,exp(U)*DU) :- derive(U,X,DU).
derive(log(U),X,DU/U) :- derive(U,X,DU).

% The parts are made plain first, and then what they are parts of.
plain(E,E) :- atomic(E), !.
plain(U+V,E) :- !, plain(U,P), plain(V,Q), sum(P,Q,E).
plain(U-V,E) :- !, plain(U,P), plain(V,Q), difference(P,Q,E).
plain(U*V,E) :- !, plain(U,P), plain(V,Q), product(P,Q,E).
plain(U/V,E) :- !, plain(U,P), plain(V,Q), quotient(P,Q,E).
plain(U^N,E) :- !, plain(U,P), power(P,N,E).
plain(-U,E) :- !, plain(U,P), negative(P,E).
plain(F,E) :- F =.. [Name,U], plain(U,P), E =.. [Name,P].

sum(0,E,E) :- !.
sum(E,0,E) :- !.
sum(M,N,E) :- integer(M), integer(N), !, E is M + N.
sum(P,-Q,E) :- !, difference(P,Q,E).
sum(P,Q,P+Q).

difference(E,0,E) :- !.
difference(0,E,N) :- !, negative(E,N).
difference(E,E,0) :- !.
difference(M,N,E) :- integer(M), integer(N), !, E is M - N.
difference(P+Q,P,Q) :- !.
difference(P,P+Q,N) :- !, negative(Q,N).
difference(P,N/Q,E) :- integer(N), N < 0, !, M is - N, sum(P,M/Q,E).
difference(P,Q,P-Q).

product(0,_,0) :- !.
product(_,0,0) :- !.
product(1,E,E) :- !.
product(E,1,E) :- !.
product(M,N,E) :- integer(M), integer(N), !, E is M * N.
product(P,N,E) :- integer(N), !, product(N,P,E).
product(M,N*P,E) :- integer(M), integer(N), !, K is M * N, product(K,P,E).
product(P,N*Q,E) :- integer(N), !, product(P,Q,R), product(N,R,E).
product(P,Q,P*Q).

quotient(0,_,0) :- !.
quotient(E,1,E) :- !.
quotient(E,E,1) :- !.
quotient(P,Q,P/Q).

power(_,0,1) :- !.
power(E,1,E) :- !.
power(P,N,P^N).

negative(N,E) :- integer(N), !, E is - N.
negative(-E,E) :- !.
negative(P-Q,Q-P) :- !.
negative(E,-E).
