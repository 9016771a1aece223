% query: relation(Relation,victoria,Other)
% A bank of facts on a family, and rules for the relations in it. The query asks for every relation of one person.

:- entry(relation(any,any,any)).

parents(edward_vii,albert,victoria).
parents(alice,albert,victoria).
parents(alfred,albert,victoria).
parents(victoria,edward_of_kent,victoria_of_saxe).
parents(albert,ernest,louise).
parents(ernest_ii,ernest,louise).
parents(edward_of_kent,george_iii,charlotte).
parents(george_iv,george_iii,charlotte).
parents(william_iv,george_iii,charlotte).
parents(victoria_of_saxe,francis,augusta).
parents(ernest,francis,augusta).
parents(george_v,edward_vii,alexandra).
parents(louise_of_fife,edward_vii,alexandra).
parents(alix,ludwig,alice).

male(edward_vii). male(albert). male(alfred). male(edward_of_kent). male(ernest). male(ernest_ii). male(george_iii).
male(george_iv). male(william_iv). male(francis). male(george_v). male(ludwig).

female(victoria). female(alice). female(victoria_of_saxe). female(louise). female(charlotte). female(augusta).
female(alexandra). female(louise_of_fife). female(alix).

parent(P,Child) :- parents(Child,P,_).
parent(P,Child) :- parents(Child,_,P).

relation(mother,X,Y) :- parents(X,_,Y).
relation(father,X,Y) :- parents(X,Y,_).
relation(husband,X,Y) :- married(Y,X).
relation(wife,X,Y) :- married(X,Y).
relation(son,X,Y) :- parent(X,Y), male(Y).
relation(daughter,X,Y) :- parent(X,Y), female(Y).
relation(grandparent,X,Y) :- parent(P,X), parent(Y,P).
relation(grandchild,X,Y) :- parent(X,P), parent(P,Y).
relation(brother,X,Y) :- siblings(X,Y), male(Y).
relation(uncle,X,Y) :- parent(P,X), siblings(P,Y), male(Y).
relation(cousin,X,Y) :- parent(P,X), siblings(P,Q), parent(Q,Y).
relation(ancestor,X,Y) :- ancestor(X,Y).

siblings(X,Y) :- parents(X,F,M), parents(Y,F,M), X \== Y.

% Each couple once, at its first child.
married(F,M) :- parents(Child,F,M), \+ elder(Child,F,M).

elder(Child,F,M) :- parents(First,F,M), !, First \== Child.

ancestor(X,Y) :- parent(Y,X).
ancestor(X,Y) :- parent(P,X), ancestor(P,Y).
