% query: bench(400)
% The puzzle of the five houses, all of its solutions: unification of structures with many variables.

:- entry(bench(ground)).

bench(0).
bench(N) :- N > 0, \+ round, M is N - 1, bench(M).

round :- zebra(_), fail.

zebra(Zebra) :-
    Street = [house(_,norwegian,_,_,_),_,house(_,_,_,milk,_),_,_],
    among(house(red,english,_,_,_),Street),
    among(house(green,_,_,coffee,_),Street),
    right_of(house(green,_,_,_,_),house(ivory,_,_,_,_),Street),
    among(house(_,spanish,dog,_,_),Street),
    among(house(_,ukrainian,_,tea,_),Street),
    among(house(_,_,snails,_,old_gold),Street),
    among(house(yellow,_,_,_,kools),Street),
    beside(house(_,norwegian,_,_,_),house(blue,_,_,_,_),Street),
    beside(house(_,_,_,_,kools),house(_,_,horse,_,_),Street),
    beside(house(_,_,_,_,chesterfield),house(_,_,fox,_,_),Street),
    among(house(_,_,_,orange_juice,lucky_strike),Street),
    among(house(_,japanese,_,_,parliament),Street),
    among(house(_,Zebra,zebra,_,_),Street),
    among(house(_,_,_,water,_),Street).

among(X,[X|_]).
among(X,[_|Rest]) :- among(X,Rest).

right_of(X,Y,[Y,X|_]).
right_of(X,Y,[_|Rest]) :- right_of(X,Y,Rest).

beside(X,Y,Street) :- right_of(X,Y,Street).
beside(X,Y,Street) :- right_of(Y,X,Street).
