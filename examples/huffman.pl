% query: huffman([a,b,r,a,c,a,d,a,b,r,a],Codes,Bits,Again)
% Huffman's codes for the letters of a text: the two rarest trees are joined until one is left, and a letter's code is its way
% from the root. The text is encoded by the codes and decoded by the tree again.

:- entry(huffman(ground,out,out,out)).

huffman(Text,Codes,Bits,Again) :-
    weights(Text,[],Weights),
    leaves(Weights,[],Leaves),
    join(Leaves,Tree),
    codes(Tree,[],Codes,[]),
    encode(Text,Codes,Bits),
    decode(Bits,Tree,Again).

weights([],Weights,Weights).
weights([Letter|Text],Sofar,Weights) :- add(Sofar,Letter,Next), weights(Text,Next,Weights).

add([],Letter,[weight(Letter,1)]).
add([weight(Letter,N)|Weights],Letter,[weight(Letter,M)|Weights]) :- !, M is N + 1.
add([Weight|Weights],Letter,[Weight|More]) :- add(Weights,Letter,More).

% Trees stand in a list, the lightest first; a new one goes behind those of its weight.
leaves([],Trees,Trees).
leaves([weight(Letter,N)|Weights],Sofar,Trees) :- insert(Sofar,N-leaf(Letter),Next), leaves(Weights,Next,Trees).

insert([],New,[New]).
insert([M-Tree|Trees],N-New,[N-New,M-Tree|Trees]) :- N < M, !.
insert([Tree|Trees],New,[Tree|More]) :- insert(Trees,New,More).

join([_-Tree],Tree) :- !.
join([M-Left,N-Right|Trees],Tree) :-
    Weight is M + N,
    insert(Trees,Weight-node(Left,Right),Next),
    join(Next,Tree).

codes(leaf(Letter),Backwards,[Letter-Code|Rest],Rest) :- reverse(Backwards,[],Code).
codes(node(Left,Right),Way,Codes,Rest) :-
    codes(Left,[0|Way],Codes,More),
    codes(Right,[1|Way],More,Rest).

encode([],_,[]).
encode([Letter|Text],Codes,Bits) :-
    code(Codes,Letter,Code),
    append(Code,Rest,Bits),
    encode(Text,Codes,Rest).

code([Letter-Code|_],Letter,Code) :- !.
code([_|Codes],Letter,Code) :- code(Codes,Letter,Code).

decode([],_,[]).
decode([Bit|Bits],Tree,[Letter|Text]) :- letter(Tree,[Bit|Bits],Letter,Rest), decode(Rest,Tree,Text).

letter(leaf(Letter),Bits,Letter,Bits).
letter(node(Left,Right),[Bit|Bits],Letter,Rest) :-
    ( Bit =:= 0 -> letter(Left,Bits,Letter,Rest) ; letter(Right,Bits,Letter,Rest) ).

append([],Ys,Ys).
append([X|Xs],Ys,[X|Zs]) :- append(Xs,Ys,Zs).

reverse([],Done,Done).
reverse([X|Rest],Sofar,Done) :- reverse(Rest,[X|Sofar],Done).
