% query: evaluate("12 * (3 + 4) - 100 / 7 + 2",Tree,Value)
% Reads an expression in two stages, both written as grammar rules: from character codes to tokens, and from tokens to a tree.
% Operators of one strength group to the left, which is why the parser hands on the tree that it has so far.

:- entry(evaluate(ground,out,out)).

evaluate(Text,Tree,Value) :-
    tokens(Tokens,Text,[]),
    sum(Tree,Tokens,[]),
    Value is Tree.

% Codes to tokens.

tokens(Tokens) --> blank, !, tokens(Tokens).
tokens([Token|Tokens]) --> token(Token), !, tokens(Tokens).
tokens([]) --> [].

blank --> [Code], { Code =< 32 }.

token(number(N)) --> digit(D), !, digits(D,N).
token(plus) --> "+".
token(minus) --> "-".
token(times) --> "*".
token(over) --> "/".
token(open) --> "(".
token(close) --> ")".

digits(Sofar,N) --> digit(D), !, { Next is Sofar * 10 + D }, digits(Next,N).
digits(N,N) --> [].

digit(D) --> [Code], { Code >= 0'0, Code =< 0'9, D is Code - 0'0 }.

% Tokens to a tree.

sum(Tree) --> product(First), sum_rest(First,Tree).

sum_rest(Sofar,Tree) --> [plus], !, product(Next), sum_rest(Sofar + Next,Tree).
sum_rest(Sofar,Tree) --> [minus], !, product(Next), sum_rest(Sofar - Next,Tree).
sum_rest(Tree,Tree) --> [].

product(Tree) --> factor(First), product_rest(First,Tree).

product_rest(Sofar,Tree) --> [times], !, factor(Next), product_rest(Sofar * Next,Tree).
product_rest(Sofar,Tree) --> [over], !, factor(Next), product_rest(Sofar // Next,Tree).
product_rest(Tree,Tree) --> [].

factor(N) --> [number(N)].
factor(- Tree) --> [minus], factor(Tree).
factor(Tree) --> [open], sum(Tree), [close].
