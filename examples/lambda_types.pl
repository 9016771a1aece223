% query: typing(Term,Type)
% Finds the most general type of lambda terms. A term is a variable `v(Name)`, a function `fn(Name,Body)`, an application
% `app(F,A)`, a `let(Name,Value,Body)`, or an integer. The unification of the language does not ask whether a variable occurs in
% the term that it is bound to, and a type checker has to: so `unify` here does it, and `fn(x,app(x,x))` has no type.

:- entry(typing(out,out)).

typing(Term,Type) :-
    example(Term),
    ( type(Term,[],Found) -> Type = Found ; Type = none ).

example(fn(x,v(x))).
example(fn(x,fn(y,v(x)))).
example(fn(f,fn(g,fn(x,app(v(f),app(v(g),v(x))))))).
example(fn(f,fn(x,fn(y,app(app(v(f),v(y)),v(x)))))).
example(app(fn(x,app(app(v(plus),v(x)),1)),41)).
example(fn(x,app(v(x),v(x)))).
example(app(1,2)).
example(let(identity,fn(x,v(x)),app(app(v(identity),v(identity)),3))).
example(app(fn(identity,app(app(v(identity),v(identity)),3)),fn(x,v(x)))).
example(fn(p,app(app(v(pair),v(p)),v(p)))).
example(v(unknown)).

type(N,_,int) :- integer(N).
type(v(Name),Context,Type) :-
    ( bound(Name,Context,Scheme) -> instance(Scheme,Type) ; constant(Name,Type) ).
type(fn(Name,Body),Context,(From -> To)) :- type(Body,[Name-mono(From)|Context],To).
type(app(F,A),Context,To) :-
    type(F,Context,TypeF),
    type(A,Context,From),
    unify(TypeF,(From -> To)).
type(let(Name,Value,Body),Context,Type) :-
    type(Value,Context,TypeV),
    type(Body,[Name-poly(TypeV,Context)|Context],Type).

constant(plus,(int -> int -> int)).
constant(pair,(A -> B -> pair(A,B))).

bound(Name,[Name-Scheme|_],Scheme) :- !.
bound(Name,[_|Context],Scheme) :- bound(Name,Context,Scheme).

% A use of what `let` names has a copy of its type, in which the variables of the context around stay as they are.
instance(mono(Type),Type).
instance(poly(Type,Context),Copy) :- copy_term(poly(Type,Context),poly(Copy,Context)).

unify(S,T) :- S == T, !.
unify(S,T) :- var(S), !, free_of(S,T), S = T.
unify(S,T) :- var(T), !, free_of(T,S), S = T.
unify(S,T) :-
    functor(S,Name,Arity),
    functor(T,Name,Arity),
    unify_arguments(Arity,S,T).

unify_arguments(0,_,_) :- !.
unify_arguments(N,S,T) :-
    arg(N,S,A),
    arg(N,T,B),
    unify(A,B),
    Before is N - 1,
    unify_arguments(Before,S,T).

free_of(X,T) :- var(T), !, X \== T.
free_of(X,T) :- functor(T,_,Arity), free_of_arguments(Arity,X,T).

free_of_arguments(0,_,_) :- !.
free_of_arguments(N,X,T) :-
    arg(N,T,A),
    free_of(X,A),
    Before is N - 1,
    free_of_arguments(Before,X,T).
