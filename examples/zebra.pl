% query: zebra(Zebra,Water)
% The puzzle of the five houses: who keeps the zebra, and who drinks water? A house is known by its colour, the nation of its
% owner, the pet, the drink and the brand that is smoked.

:- entry(zebra(out,out)).

zebra(Zebra,Water) :-
    Street = [house(_,norwegian,_,_,_),_,house(_,_,_,milk,_),_,_],
    member(house(red,english,_,_,_),Street),
    member(house(green,_,_,coffee,_),Street),
    right_of(house(green,_,_,_,_),house(ivory,_,_,_,_),Street),
    member(house(_,spanish,dog,_,_),Street),
    member(house(_,ukrainian,_,tea,_),Street),
    member(house(_,_,snails,_,old_gold),Street),
    member(house(yellow,_,_,_,kools),Street),
    beside(house(_,norwegian,_,_,_),house(blue,_,_,_,_),Street),
    beside(house(_,_,_,_,kools),house(_,_,horse,_,_),Street),
    beside(house(_,_,_,_,chesterfield),house(_,_,fox,_,_),Street),
    member(house(_,_,_,orange_juice,lucky_strike),Street),
    member(house(_,japanese,_,_,parliament),Street),
    member(house(_,Zebra,zebra,_,_),Street),
    member(house(_,Water,_,water,_),Street).

member(X,[X|_]).
member(X,[_|Rest]) :- member(X,Rest).

right_of(X,Y,[Y,X|_]).
right_of(X,Y,[_|Rest]) :- right_of(X,Y,Rest).

beside(X,Y,Street) :- right_of(X,Y,Street).
beside(X,Y,Street) :- right_of(Y,X,Street).
