% query: solve(Send,More,Money)
% SEND + MORE = MONEY, where each letter is a digit of its own. The columns are added from the right, and each sum fixes the
% digit below it, so that a wrong choice is seen early.

:- entry(solve(out,out,out)).

solve([S,E,N,D],[M,O,R,E],[M,O,N,E,Y]) :-
    Digits = [0,1,2,3,4,5,6,7,8,9],
    column(0,D,E,Y,Carry1,Digits,Digits1),
    column(Carry1,N,R,E,Carry2,Digits1,Digits2),
    column(Carry2,E,O,N,Carry3,Digits2,Digits3),
    column(Carry3,S,M,O,M,Digits3,_),
    S > 0,
    M > 0.

% The letters of a column, with the digits that no letter has before and after. A carry is no letter, but the last one is M.
column(Carry,A,B,Sum,Carried,Before,After) :-
    digit(A,Before,Between),
    digit(B,Between,Later),
    Total is A + B + Carry,
    Carried is Total // 10,
    Low is Total mod 10,
    sum_digit(Sum,Low,Later,After).

% A letter that has its digit keeps it.
digit(A,Digits,Digits) :- integer(A), !.
digit(A,Digits,Rest) :- take(A,Digits,Rest).

sum_digit(A,Low,Digits,Digits) :- integer(A), !, A = Low.
sum_digit(Low,Low,Digits,Rest) :- take(Low,Digits,Rest).

take(X,[X|Rest],Rest).
take(X,[Y|Rest],[Y|Left]) :- take(X,Rest,Left).
