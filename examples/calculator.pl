% query: session(Results)
% A calculator that goes on after errors: each line of a session is an expression or an assignment, each fault is raised where it
% is found and caught around its line, and the errors of arithmetic are told in words. One kind of fault ends the session; it is
% raised again and caught further out.

:- entry(session(out)).

session(Results) :-
    lines(Lines),
    catch(answer_all(Lines,[],Results),stop(Reason),Results = stopped(Reason)).

lines([
    set(width,6 * 7),
    show(width + 1),
    show(height - 1),
    show(width // (width - 42)),
    set(big,1 << 62),
    show(big + big),
    show(1 << 64),
    show(power(2,10)),
    show(power(2,-1)),
    show(width rem 5 - power(width,2) mod 100),
    show(colour(red)),
    leave(done),
    show(1)
]).

answer_all([],_,[]).
answer_all([Line|Lines],Values,Results) :-
    catch(answer(Line,Values,Next,Result),Ball,recover(Ball,Line,Values,Next,Result)),
    write(Line), write(' => '), write(Result), nl,
    answer_on(Lines,Next,Result,Results).

answer_on(Lines,Values,Result,[Result|Results]) :- answer_all(Lines,Values,Results).

answer(set(Name,Expression),Values,[Name-Value|Values],Value) :- value(Expression,Values,Value).
answer(show(Expression),Values,Values,Value) :- value(Expression,Values,Value).
answer(leave(Reason),_,_,_) :- throw(stop(Reason)).

% A stop goes further out. Every other fault leaves the values as they were.
recover(stop(Reason),_,_,_,_) :- !, throw(stop(Reason)).
recover(Ball,_,Values,Values,fault(Text)) :- text(Ball,Text).

text(error(evaluation_error(zero_divisor),_),'division by zero') :- !.
text(error(evaluation_error(int_overflow),_),'too large') :- !.
text(error(evaluation_error(undefined),_),'no such shift') :- !.
text(error(type_error(evaluable,Name/_),_),unknown(Name)) :- !.
text(no_value(Name),unset(Name)) :- !.
text(negative_power(N),power(N)).

value(N,_,N) :- integer(N), !.
value(Name,Values,Value) :- atom(Name), !, value_of(Values,Name,Value).
value(power(A,B),Values,Value) :- !, value(A,Values,X), value(B,Values,Y), power(X,Y,Value).
value(Expression,Values,Value) :-
    Expression =.. [Operator,A,B], !,
    value(A,Values,X),
    value(B,Values,Y),
    Sum =.. [Operator,X,Y],
    Value is Sum.
value(Expression,_,Value) :- Value is Expression.

value_of([],Name,_) :- throw(no_value(Name)).
value_of([Name-Value|_],Name,Value) :- !.
value_of([_|Values],Name,Value) :- value_of(Values,Name,Value).

power(_,N,_) :- N < 0, !, throw(negative_power(N)).
power(_,0,1) :- !.
power(X,N,Value) :- M is N - 1, power(X,M,Before), Value is X * Before.
