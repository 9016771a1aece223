% query: execute("left := 10; sum := 0; while 0 < left do (if even left then sum := sum + left else skip; left := left - 1)",Store)
% A small imperative language: its text is tokenized and parsed by grammar rules to a statement, and the statement is carried
% out on a store, which is a list of names and values. A name that has no value yet raises an error, and it is caught.

:- entry(execute(ground,out)).

execute(Text,Store) :-
    tokens(Tokens,Text,[]),
    statements(Program,Tokens,[]),
    catch(carry_out(Program,[],Store),no_value(Name),Store = no_value(Name)).

% Tokens. There is no built-in that makes an atom of codes, so a table has the words of the language and the names.

tokens(Tokens) --> blank, !, tokens(Tokens).
tokens([Token|Tokens]) --> token(Token), !, tokens(Tokens).
tokens([]) --> [].

blank --> " ".
blank --> "\n".

token(word(Word)) --> letter(C), !, letters(Cs), { word([C|Cs],Word) }.
token(number(N)) --> digit(D), !, digits(D,N).
token(assign) --> ":=".
token(less) --> "<".
token(plus) --> "+".
token(minus) --> "-".
token(times) --> "*".
token(semicolon) --> ";".
token(open) --> "(".
token(close) --> ")".

letters([C|Cs]) --> letter(C), !, letters(Cs).
letters([]) --> [].

letter(C) --> [C], { C >= 0'a, C =< 0'z }.

digits(Sofar,N) --> digit(D), !, { Next is Sofar * 10 + D }, digits(Next,N).
digits(N,N) --> [].

digit(D) --> [C], { C >= 0'0, C =< 0'9, D is C - 0'0 }.

word("while",while) :- !.
word("do",do) :- !.
word("if",if) :- !.
word("then",then) :- !.
word("else",else) :- !.
word("even",even) :- !.
word("skip",skip) :- !.
word("left",left) :- !.
word("sum",sum) :- !.
word(Codes,unknown(Codes)).

% Statements.

statements(Program) --> statement(First), statements_after(First,Program).

statements_after(First,(First;Rest)) --> [semicolon], !, statements(Rest).
statements_after(First,First) --> [].

statement(skip) --> [word(skip)].
statement(while(Test,Body)) --> [word(while)], !, test(Test), [word(do)], statement(Body).
statement(if(Test,Yes,No)) -->
    [word(if)], !, test(Test), [word(then)], statement(Yes), [word(else)], statement(No).
statement(Body) --> [open], !, statements(Body), [close].
statement(assign(Name,Value)) --> [word(Name),assign], value(Value).

test(even(Value)) --> [word(even)], !, value(Value).
test(less(A,B)) --> value(A), [less], value(B).

value(Value) --> simple(First), value_after(First,Value).

value_after(Sofar,Value) --> [plus], !, simple(Next), value_after(plus(Sofar,Next),Value).
value_after(Sofar,Value) --> [minus], !, simple(Next), value_after(minus(Sofar,Next),Value).
value_after(Sofar,Value) --> [times], !, simple(Next), value_after(times(Sofar,Next),Value).
value_after(Value,Value) --> [].

simple(number(N)) --> [number(N)].
simple(name(Name)) --> [word(Name)].

% Carrying out.

carry_out(skip,Store,Store).
carry_out((First;Rest),Before,After) :- carry_out(First,Before,Between), carry_out(Rest,Between,After).
carry_out(assign(Name,Expression),Before,After) :- evaluate(Expression,Before,Value), put(Before,Name,Value,After).
carry_out(if(Test,Yes,No),Before,After) :-
    ( succeeds(Test,Before) -> carry_out(Yes,Before,After) ; carry_out(No,Before,After) ).
carry_out(while(Test,Body),Before,After) :-
    (   succeeds(Test,Before)
    ->  carry_out(Body,Before,Between), carry_out(while(Test,Body),Between,After)
    ;   After = Before
    ).

succeeds(even(Expression),Store) :- evaluate(Expression,Store,Value), 0 is Value mod 2.
succeeds(less(A,B),Store) :- evaluate(A,Store,X), evaluate(B,Store,Y), X < Y.

evaluate(number(N),_,N).
evaluate(name(Name),Store,Value) :- ( value_of(Store,Name,Found) -> Value = Found ; throw(no_value(Name)) ).
evaluate(plus(A,B),Store,Value) :- evaluate(A,Store,X), evaluate(B,Store,Y), Value is X + Y.
evaluate(minus(A,B),Store,Value) :- evaluate(A,Store,X), evaluate(B,Store,Y), Value is X - Y.
evaluate(times(A,B),Store,Value) :- evaluate(A,Store,X), evaluate(B,Store,Y), Value is X * Y.

value_of([Name = Value|_],Name,Value) :- !.
value_of([_|Store],Name,Value) :- value_of(Store,Name,Value).

put([],Name,Value,[Name = Value]).
put([Name = _|Store],Name,Value,[Name = Value|Store]) :- !.
put([Other|Store],Name,Value,[Other|After]) :- put(Store,Name,Value,After).
