% Runs a program of the language under SWI-Prolog and writes what `aquarius run` is due to write, without the counts line:
%
%   swipl --traditional -q -f none -g main checks/swi.pl -- PROGRAM QUERY
%
% SWI-Prolog does the search, the cuts, the unification and the balls. The built-ins, their errors and the written terms are
% defined here, since its own differ. The status is 0 after an answer, 1 without one, 2 after a ball that nothing caught, and
% 9 where the program is none of the language as far as this file looks.

:- use_module(library(lists)).
:- set_prolog_flag(stack_limit, 6000000000).

main :-
    current_prolog_flag(argv, [Program, Query]),
    run_program(Program, Query).

run_program(Program, Query) :-
    set_stream(user_output, encoding(utf8)),
    clear_operators,
    read_program(Program, Clauses),
    load(Clauses),
    term_from_atom(Query, Goal, Names),
    nb_setval(line_begun, false),
    nb_setval(answers, 0),
    run(Goal, Names).

% Reading. The program's terms are read in a module of their own, whose operators are those of the language alone.

operator(1200, xfx, :-).   operator(1200, xfx, -->).
operator(1200, fx, :-).    operator(1200, fx, ?-).
operator(1100, xfy, ;).    operator(1050, xfy, ->).
operator(1000, xfy, ',').  operator(900, fy, \+).
operator(700, xfx, =).     operator(700, xfx, \=).
operator(700, xfx, ==).    operator(700, xfx, \==).
operator(700, xfx, @<).    operator(700, xfx, @=<).
operator(700, xfx, @>).    operator(700, xfx, @>=).
operator(700, xfx, =..).   operator(700, xfx, is).
operator(700, xfx, =:=).   operator(700, xfx, =\=).
operator(700, xfx, <).     operator(700, xfx, =<).
operator(700, xfx, >).     operator(700, xfx, >=).
operator(500, yfx, +).     operator(500, yfx, -).
operator(500, yfx, /\).    operator(500, yfx, \/).
operator(400, yfx, *).     operator(400, yfx, /).
operator(400, yfx, //).    operator(400, yfx, rem).
operator(400, yfx, mod).   operator(400, yfx, <<).
operator(400, yfx, >>).    operator(200, xfx, **).
operator(200, xfy, ^).     operator(200, fy, -).
operator(200, fy, \).

kind(xfx, infix).  kind(xfy, infix).  kind(yfx, infix).
kind(fx, prefix).  kind(fy, prefix).
kind(xf, postfix). kind(yf, postfix).

clear_operators :-
    forall(( current_op(P, T, N), P > 0, \+ (operator(_, U, N), kind(T, K), kind(U, K)), N \== '[]', N \== {} ),
           catch(op(0, T, program:N), _, true)),
    forall(( operator(P, T, N), N \== ',' ), op(P, T, program:N)).

read_program(File, Clauses) :-
    open(File, read, Stream, [encoding(utf8)]),
    read_all(Stream, Clauses),
    close(Stream).

read_all(Stream, Clauses) :-
    read_term(Stream, Term, [module(program), double_quotes(codes)]),
    (   Term == end_of_file
    ->  Clauses = []
    ;   Clauses = [Term|Rest],
        read_all(Stream, Rest)
    ).

term_from_atom(Text, Term, Names) :-
    atom_concat(Text, ' .', Whole),
    open_string(Whole, Stream),
    read_term(Stream, Term, [module(program), double_quotes(codes), variable_names(Names)]),
    close(Stream).

% Loading. Each predicate gets another name, so that none meets one of SWI-Prolog's own.

load(Clauses) :-
    plain_clauses(Clauses, Plain),
    forall(member((H :- _), Plain), ( functor(H, N, A), renamed(N, M), dynamic(program:M/A) )),
    forall(member((H :- B), Plain), ( rename(H, H1), body(B, B1), assertz((program:H1 :- program:B1)) )).

plain_clauses([], []).
plain_clauses([:- entry(_)|Rest], Plain) :- !, plain_clauses(Rest, Plain).
plain_clauses([(H --> B)|Rest], [(H1 :- B1)|Plain]) :- !,
    with_lists(H, S0, S, H1),
    grammar(B, S0, S, B1),
    plain_clauses(Rest, Plain).
plain_clauses([(H :- B)|Rest], [(H :- B)|Plain]) :- !, plain_clauses(Rest, Plain).
plain_clauses([H|Rest], [(H :- true)|Plain]) :- plain_clauses(Rest, Plain).

with_lists(T, S0, S, U) :-
    T =.. [N|Args],
    append(Args, [S0, S], More),
    U =.. [N|More].

grammar(B, _, _, _) :- var(B), !, outside(B).
grammar((A, B), S0, S, (A1, B1)) :- !, grammar(A, S0, S1, A1), grammar(B, S1, S, B1).
grammar((A ; B), S0, S, (A1 ; B1)) :- !, grammar(A, S0, S, A1), grammar(B, S0, S, B1).
grammar((A -> B), S0, S, (A1 -> B1)) :- !, grammar(A, S0, S1, A1), grammar(B, S1, S, B1).
grammar(\+ A, S0, S, (\+ A1, S0 = S)) :- !, grammar(A, S0, _, A1).
grammar(!, S0, S, (!, S0 = S)) :- !.
grammar({G}, S0, S, (G, S0 = S)) :- !.
grammar([], S0, S, S0 = S) :- !.
grammar([A|As], S0, S, S0 = List) :- !, append([A|As], S, List).
grammar(T, S0, S, U) :- with_lists(T, S0, S, U).

renamed(Name, Other) :- atom_concat('the program''s ', Name, Other).

rename(T, U) :- T =.. [N|Args], renamed(N, M), U =.. [M|Args].

outside(T) :-
    format(user_error, "no program of the language: ~q~n", [T]),
    halt(9).

body(G, _) :- ( var(G) ; integer(G) ), !, outside(G).
body((A, B), (A1, B1)) :- !, body(A, A1), body(B, B1).
body((A ; B), (A1 ; B1)) :- !, body(A, A1), body(B, B1).
body((A -> B), (A1 -> B1)) :- !, body(A, A1), body(B, B1).
body(\+ A, \+ A1) :- !, body(A, A1).
body(catch(G, C, R), catch(G1, C, R1)) :- !, body(G, G1), body(R, R1).
body(throw(B), user:raise(B)) :- !.
body(G, G) :- control(G), !.
body(G, user:H) :- built_in(G, H), !.
body(G, _) :- functor(G, N, A), reserved(N, A), !, outside(G).
body(G, H) :-
    functor(G, N, A),
    renamed(N, M),
    functor(Head, M, A),
    (   predicate_property(program:Head, dynamic)
    ->  rename(G, H)
    ;   H = user:error(existence_error(procedure, N/A))
    ).

control(true).  control(fail).  control(!).
control(_ = _).  control(_ \= _).
control(_ == _).  control(_ \== _).
control(var(_)).  control(nonvar(_)).  control(atom(_)).  control(integer(_)).
control(number(_)).  control(atomic(_)).  control(compound(_)).

built_in(A @< B, order_among(A, B, [<])).
built_in(A @=< B, order_among(A, B, [<, =])).
built_in(A @> B, order_among(A, B, [>])).
built_in(A @>= B, order_among(A, B, [>, =])).
built_in(compare(O, A, B), ( order(A, B, P), O = P )).
built_in(functor(T, N, A), do_functor(T, N, A)).
built_in(arg(N, T, A), do_arg(N, T, A)).
built_in(T =.. L, do_univ(T, L)).
built_in(copy_term(T, C), copy_term(T, C)).
built_in(X is E, ( value(E, V), X = V )).
built_in(A =:= B, ( value(A, V), value(B, W), V =:= W )).
built_in(A =\= B, ( value(A, V), value(B, W), V =\= W )).
built_in(A < B, ( value(A, V), value(B, W), V < W )).
built_in(A =< B, ( value(A, V), value(B, W), V =< W )).
built_in(A > B, ( value(A, V), value(B, W), V > W )).
built_in(A >= B, ( value(A, V), value(B, W), V >= W )).
built_in(write(T), put_term(T, bare)).
built_in(writeq(T), put_term(T, quoted)).
built_in(nl, put_text([10])).
built_in(put_char(C), do_put_char(C)).

reserved(call, A) :- A >= 1, A =< 8.
reserved(N, A) :- member(N/A, [findall/3, bagof/3, setof/3, asserta/1, assertz/1, assert/1, retract/1, abolish/1, clause/2,
    once/1, repeat/0, halt/0, halt/1, op/3, current_op/3, float/1, unify_with_occurs_check/2, read/1, read_term/2, get_char/1,
    peek_char/1, write_canonical/1, write_term/2, print/1, atom_length/2, atom_concat/3, sub_atom/5, atom_chars/2, atom_codes/2,
    char_code/2, number_chars/2, number_codes/2, current_predicate/1, set_prolog_flag/2, current_prolog_flag/2, open/3, open/4,
    close/1, (-->)/2, (:-)/1, (:-)/2, (?-)/1]).

% Errors and balls.

error(E) :- throw(error(E, [])).

raise(B) :- ( var(B) -> error(instantiation_error) ; throw(B) ).

% The order of terms.

order_among(A, B, Orders) :- order(A, B, O), memberchk(O, Orders).

order(A, B, O) :- ( var(A) ; var(B) ), !, order_variable(A, B, O).
order(A, B, O) :- rank(A, I), rank(B, J), compare(P, I, J), ( P \== (=) -> O = P ; order_alike(I, A, B, O) ).

order_variable(A, B, O) :- A == B, !, O = (=) .
order_variable(A, B, _) :- var(A), var(B), !, error(instantiation_error).
order_variable(A, _, O) :- ( var(A) -> O = (<) ; O = (>) ).

rank(T, 1) :- integer(T), !.
rank(T, 2) :- atom(T), !.
rank(_, 3).

order_alike(1, A, B, O) :- compare(O, A, B).
order_alike(2, A, B, O) :- atom_codes(A, As), atom_codes(B, Bs), compare(O, As, Bs).
order_alike(3, A, B, O) :-
    functor(A, N, I), functor(B, M, J),
    compare(P, I, J),
    (   P \== (=) -> O = P
    ;   order_alike(2, N, M, Q),
        ( Q \== (=) -> O = Q ; order_arguments(1, I, A, B, O) )
    ).

order_arguments(K, I, A, B, O) :-
    arg(K, A, X), arg(K, B, Y),
    (   K =:= I -> order(X, Y, O)
    ;   order(X, Y, P),
        ( P \== (=) -> O = P ; L is K + 1, order_arguments(L, I, A, B, O) )
    ).

% Built-ins on terms.

do_functor(T, N, A) :- nonvar(T), !, functor(T, M, B), N = M, A = B.
do_functor(_, N, A) :- ( var(N) ; var(A) ), !, error(instantiation_error).
do_functor(_, N, _) :- compound(N), !, error(type_error(atomic, N)).
do_functor(_, _, A) :- \+ integer(A), !, error(type_error(integer, A)).
do_functor(_, _, A) :- A < 0, !, error(domain_error(not_less_than_zero, A)).
do_functor(_, _, A) :- A > 255, !, error(representation_error(max_arity)).
do_functor(_, N, A) :- A > 0, integer(N), !, error(type_error(atom, N)).
do_functor(T, N, A) :- functor(T, N, A).

do_arg(N, T, _) :- ( var(N) ; var(T) ), !, error(instantiation_error).
do_arg(N, _, _) :- \+ integer(N), !, error(type_error(integer, N)).
do_arg(_, T, _) :- \+ compound(T), !, error(type_error(compound, T)).
do_arg(N, _, _) :- N < 0, !, error(domain_error(not_less_than_zero, N)).
do_arg(N, T, A) :- arg(N, T, B), !, A = B.

do_univ(T, L) :- nonvar(T), !, T =.. K, L = K.
do_univ(_, L) :- partial(L), !, error(instantiation_error).
do_univ(_, L) :- \+ is_list(L), !, error(type_error(list, L)).
do_univ(_, []) :- !, error(domain_error(non_empty_list, [])).
do_univ(_, [E|_]) :- var(E), !, error(instantiation_error).
do_univ(_, [E]) :- compound(E), !, error(type_error(atomic, E)).
do_univ(_, [E,_|_]) :- \+ atom(E), !, error(type_error(atom, E)).
do_univ(_, L) :- length(L, N), N > 256, !, error(representation_error(max_arity)).
do_univ(T, L) :- T =.. L.

partial(L) :- var(L), !.
partial([_|T]) :- partial(T).

do_put_char(C) :- var(C), !, error(instantiation_error).
do_put_char(C) :- atom(C), atom_codes(C, [Code]), !, put_text([Code]).
do_put_char(C) :- error(type_error(character, C)).

% Arithmetic.

value(E, _) :- var(E), !, error(instantiation_error).
value(E, E) :- integer(E), !.
value(E, V) :- form(E), !, E =.. [F|Args], values(Args, Values), result(F, Values, V).
value(E, _) :- functor(E, N, A), error(type_error(evaluable, N/A)).

form(_ + _).  form(_ - _).  form(_ * _).  form(- _).  form(_ // _).  form(_ rem _).  form(_ mod _).
form(_ << _).  form(_ >> _).  form(_ /\ _).  form(_ \/ _).  form(\ _).

values([], []).
values([E|Es], [V|Vs]) :- value(E, V), values(Es, Vs).

result(+, [X,Y], V) :- W is X + Y, within(W, V).
result(-, [X,Y], V) :- W is X - Y, within(W, V).
result(*, [X,Y], V) :- W is X * Y, within(W, V).
result(-, [X], V) :- W is - X, within(W, V).
result(//, [X,Y], V) :- divisor(Y), quotient(X, Y, W), within(W, V).
result(rem, [X,Y], V) :- divisor(Y), V is X rem Y.
result(mod, [X,Y], V) :- divisor(Y), V is X mod Y.
result(<<, [X,Y], V) :- shift(Y), W is X << Y, within(W, V).
result(>>, [X,Y], V) :- shift(Y), V is X >> Y.
result(/\, [X,Y], V) :- V is X /\ Y.
result(\/, [X,Y], V) :- V is X \/ Y.
result(\, [X], V) :- V is \ X.

quotient(X, Y, Z) :- Q is abs(X) // abs(Y), ( sign(X) * sign(Y) < 0 -> Z is - Q ; Z = Q ).

divisor(Y) :- ( Y =:= 0 -> error(evaluation_error(zero_divisor)) ; true ).

shift(Y) :- ( Y >= 0, Y =< 63 -> true ; error(evaluation_error(undefined)) ).

within(W, V) :-
    (   W >= -9223372036854775808, W =< 9223372036854775807
    ->  V = W
    ;   error(evaluation_error(int_overflow))
    ).

% Output: the codes of what is written, and whether a line is begun.

put_text([]).
put_text([C|Cs]) :-
    put_code(C),
    ( C =:= 10 -> nb_setval(line_begun, false) ; nb_setval(line_begun, true) ),
    put_text(Cs).

put_line(Codes) :- put_text(Codes), put_text([10]).

new_line :- ( nb_getval(line_begun, true) -> put_text([10]) ; true ).

put_term(T, Quotes) :- numbered(T, U), written(U, 1200, Quotes, Codes), put_text(Codes).

% A copy of a term whose variables have their numbers.
numbered(T, U) :- copy_term(T, U), term_variables(U, Vs), number_from(Vs, 0).

number_from([], _).
number_from(['variable numbered'(N)|Vs], N) :- M is N + 1, number_from(Vs, M).

% Written terms.

written(T, _, _, Codes) :- T = 'variable numbered'(N), !, number_codes(N, Ds), Codes = [0'_|Ds].
written(T, _, _, Codes) :- integer(T), !, number_codes(T, Codes).
written(T, _, Quotes, Codes) :- atom(T), !, atom_text(T, Quotes, Codes).
written([H|T], _, Quotes, Codes) :- !,
    written(H, 999, Quotes, First),
    rest_text(T, Quotes, Rest),
    append(["[", First, Rest, "]"], Codes).
written({T}, _, Quotes, Codes) :- !, written(T, 1200, Quotes, Inner), append(["{", Inner, "}"], Codes).
written(T, Most, Quotes, Codes) :-
    T =.. [F,X,Y], operator(P, Type, F), kind(Type, infix), !,
    sides(Type, P, L, R),
    operand(X, L, Quotes, Left), operand(Y, R, Quotes, Right),
    atom_text_of_operator(F, Quotes, Name),
    spaced(F, P, Left, Name, Right, Codes0),
    bracketed(P, Most, Codes0, Codes).
written(T, Most, Quotes, Codes) :-
    T =.. [F,X], operator(P, Type, F), kind(Type, prefix), !,
    ( Type == fy -> R = P ; R is P - 1 ),
    operand(X, R, Quotes, Right),
    atom_text(F, Quotes, Name),
    Right = [C|_],
    ( ( symbol(C) ; C >= 0'0, C =< 0'9 ; C =:= 0'( ) -> Space = " " ; Space = "" ),
    append([Name, Space, Right], Codes0),
    bracketed(P, Most, Codes0, Codes).
written(T, _, Quotes, Codes) :-
    T =.. [F,X|Xs],
    atom_text(F, Quotes, Name),
    written(X, 999, Quotes, First),
    arguments_text(Xs, Quotes, Rest),
    append([Name, "(", First, Rest, ")"], Codes).

sides(xfx, P, L, R) :- L is P - 1, R is P - 1.
sides(xfy, P, L, P) :- L is P - 1.
sides(yfx, P, P, R) :- R is P - 1.

operand(T, _, Quotes, Codes) :- atom(T), operator(_, _, T), !, atom_text(T, Quotes, Name), append(["(", Name, ")"], Codes).
operand(T, Most, Quotes, Codes) :- written(T, Most, Quotes, Codes).

bracketed(P, Most, Codes0, Codes) :- ( P > Most -> append(["(", Codes0, ")"], Codes) ; Codes = Codes0 ).

atom_text_of_operator(',', _, ",") :- !.
atom_text_of_operator(F, Quotes, Name) :- atom_text(F, Quotes, Name).

spaced(',', _, Left, Name, Right, Codes) :- !, append([Left, Name, Right], Codes).
spaced(F, P, Left, Name, Right, Codes) :-
    ( P >= 700 ; F == rem ; F == mod ), !,
    append([Left, " ", Name, " ", Right], Codes).
spaced(_, _, Left, Name, Right, Codes) :-
    last(Left, C), Right = [D|_],
    ( symbol(C) -> Before = " " ; Before = "" ),
    ( symbol(D) -> After = " " ; After = "" ),
    append([Left, Before, Name, After, Right], Codes).

rest_text([], _, "") :- !.
rest_text([H|T], Quotes, Codes) :- !,
    written(H, 999, Quotes, First),
    rest_text(T, Quotes, Rest),
    append([",", First, Rest], Codes).
rest_text(T, Quotes, Codes) :- written(T, 999, Quotes, Tail), append(["|", Tail], Codes).

arguments_text([], _, "").
arguments_text([X|Xs], Quotes, Codes) :-
    written(X, 999, Quotes, First),
    arguments_text(Xs, Quotes, Rest),
    append([",", First, Rest], Codes).

symbol(C) :- memberchk(C, "+-*/\\^<>=~:.?@#&$").

atom_text(A, bare, Codes) :- !, atom_codes(A, Codes).
atom_text(A, quoted, Codes) :- atom_codes(A, Cs), ( stands_bare(A, Cs) -> Codes = Cs ; quoted_codes(Cs, Qs), append(["'", Qs, "'"], Codes) ).

stands_bare(!, _) :- !.
stands_bare(;, _) :- !.
stands_bare([], _) :- !.
stands_bare({}, _) :- !.
stands_bare(_, [C|Cs]) :- C >= 0'a, C =< 0'z, !, \+ ( member(D, Cs), \+ letter(D) ).
stands_bare(A, Cs) :- A \== '.', Cs = [_|_], \+ ( member(D, Cs), \+ symbol(D) ), \+ append("/*", _, Cs).

letter(D) :- D >= 0'a, D =< 0'z, !.
letter(D) :- D >= 0'A, D =< 0'Z, !.
letter(D) :- D >= 0'0, D =< 0'9, !.
letter(0'_).

quoted_codes([], []).
quoted_codes([C|Cs], Codes) :- quoted_code(C, Ds), quoted_codes(Cs, Rest), append(Ds, Rest, Codes).

quoted_code(0'\\, "\\\\") :- !.
quoted_code(0'', "\\'") :- !.
quoted_code(10, "\\n") :- !.
quoted_code(C, Codes) :- ( C < 32 ; C =:= 127 ), !, format(codes(Codes), "\\x~16r\\", [C]).
quoted_code(C, [C]).

% The run.

run(Query, Names) :-
    body(Query, Goal),
    catch(answers(Goal, Names), Ball, ended(Ball)),
    new_line,
    put_line("no"),
    nb_getval(answers, N),
    ( N > 0 -> finish(0) ; finish(1) ).

answers(Goal, Names) :- program:Goal, answer(Names), fail.
answers(_, _).

answer(Names) :-
    nb_getval(answers, N), M is N + 1, nb_setval(answers, M),
    new_line,
    numbered(Names, Numbered),
    answer_lines(Numbered),
    put_line(";").

answer_lines([]) :- put_line("true").
answer_lines([V|Vs]) :- answer_line(V), further_lines(Vs).

further_lines([]).
further_lines([V|Vs]) :- answer_line(V), further_lines(Vs).

answer_line(Name = T) :-
    atom_codes(Name, N),
    written(T, 699, quoted, Codes),
    append([N, " = ", Codes], Line),
    put_line(Line).

ended(Ball) :-
    ( nonvar(Ball), Ball = error(E, _) -> T = E ; T = Ball ),
    new_line,
    numbered(T, U),
    written(U, 1200, quoted, Codes),
    append(["error: ", Codes], Line),
    put_line(Line),
    finish(2).

finish(Status) :-
    flush_output(user_output),
    halt(Status).
