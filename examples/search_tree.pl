% query: dictionary([in,the,beginning,was,the,word,and,the,word,was,with,letters],Words,Height)
% Counts words in a balanced search tree. Each inner node keeps the difference of the heights of its sides, and where one side
% has grown by two, a rotation mends the tree. The words are compared by the order of terms.

:- entry(dictionary(ground,out,out)).

dictionary(Words,Counts,Height) :-
    insert_all(Words,empty,Tree),
    counts(Tree,Counts,[]),
    height(Tree,Height).

insert_all([],Tree,Tree).
insert_all([Word|Words],Before,After) :-
    insert(Before,Word,Between,_),
    insert_all(Words,Between,After).

% insert(Before,Word,After,Grown): Grown says whether the tree is higher than before.
insert(empty,Word,tree(empty,Word,1,balanced,empty),yes).
insert(tree(L,W,N,B,R),Word,After,Grown) :-
    compare(Order,Word,W),
    insert(Order,tree(L,W,N,B,R),Word,After,Grown).

insert(=,tree(L,W,N,B,R),_,tree(L,W,M,B,R),no) :- M is N + 1.
insert(<,tree(L,W,N,B,R),Word,After,Grown) :-
    insert(L,Word,NewL,GrownL),
    grow_left(GrownL,tree(NewL,W,N,B,R),After,Grown).
insert(>,tree(L,W,N,B,R),Word,After,Grown) :-
    insert(R,Word,NewR,GrownR),
    grow_right(GrownR,tree(L,W,N,B,NewR),After,Grown).

grow_left(no,Tree,Tree,no).
grow_left(yes,tree(L,W,N,balanced,R),tree(L,W,N,left,R),yes).
grow_left(yes,tree(L,W,N,right,R),tree(L,W,N,balanced,R),no).
grow_left(yes,tree(L,W,N,left,R),After,no) :- rotate_right(L,W,N,R,After).

grow_right(no,Tree,Tree,no).
grow_right(yes,tree(L,W,N,balanced,R),tree(L,W,N,right,R),yes).
grow_right(yes,tree(L,W,N,left,R),tree(L,W,N,balanced,R),no).
grow_right(yes,tree(L,W,N,right,R),After,no) :- rotate_left(L,W,N,R,After).

rotate_right(tree(A,V,M,left,B),W,N,C,tree(A,V,M,balanced,tree(B,W,N,balanced,C))).
rotate_right(tree(A,U,L,right,tree(B,V,M,Side,C)),W,N,D,tree(tree(A,U,L,BU,B),V,M,balanced,tree(C,W,N,BW,D))) :-
    shares(Side,BU,BW).

rotate_left(A,V,M,tree(B,W,N,right,C),tree(tree(A,V,M,balanced,B),W,N,balanced,C)).
rotate_left(A,U,L,tree(tree(B,V,M,Side,C),W,N,left,D),tree(tree(A,U,L,BU,B),V,M,balanced,tree(C,W,N,BW,D))) :-
    shares(Side,BU,BW).

% What the middle tree's side gives to the two nodes beneath it.
shares(left,balanced,right).
shares(right,left,balanced).
shares(balanced,balanced,balanced).

counts(empty,Rest,Rest).
counts(tree(L,W,N,_,R),Counts,Rest) :-
    counts(L,Counts,[W-N|More]),
    counts(R,More,Rest).

height(empty,0).
height(tree(L,_,_,Side,R),Height) :-
    ( Side == right -> height(R,H) ; height(L,H) ),
    Height is H + 1.
