% query: matrices([[2,0,1],[1,3,-2],[0,4,5]],Transposed,Square,Determinant,Inverse)
% Matrices as lists of rows: the transposed one, products, determinants and the inverse times the determinant, which is the matrix
% of the minors. The last answer value is checked by multiplying it with the matrix.

:- entry(matrices(ground,out,out,out,out)).

matrices(Matrix,Transposed,Square,Determinant,over(Adjugate,Determinant)) :-
    transpose(Matrix,Transposed),
    product(Matrix,Matrix,Square),
    determinant(Matrix,Determinant),
    adjugate(Matrix,Adjugate),
    product(Matrix,Adjugate,Checked),
    diagonal(Checked,Determinant,0).

transpose([[]|_],[]) :- !.
transpose(Rows,[Firsts|Columns]) :- firsts(Rows,Firsts,Rests), transpose(Rests,Columns).

firsts([],[],[]).
firsts([[X|Xs]|Rows],[X|Firsts],[Xs|Rests]) :- firsts(Rows,Firsts,Rests).

product(A,B,C) :- transpose(B,Columns), rows_times(A,Columns,C).

rows_times([],_,[]).
rows_times([Row|Rows],Columns,[New|News]) :- row_times(Columns,Row,New), rows_times(Rows,Columns,News).

row_times([],_,[]).
row_times([Column|Columns],Row,[X|Xs]) :- dot(Row,Column,0,X), row_times(Columns,Row,Xs).

dot([],[],Sum,Sum).
dot([X|Xs],[Y|Ys],Sofar,Sum) :- Next is Sofar + X * Y, dot(Xs,Ys,Next,Sum).

% Along the first row, each element times the determinant of its minor, with signs in turn.
determinant([],1) :- !.
determinant([Row|Rows],Determinant) :- along(Row,1,1,Rows,0,Determinant).

along([],_,_,_,Sum,Sum).
along([X|Xs],Column,Sign,Rows,Sofar,Sum) :-
    without_column(Rows,Column,Minor),
    determinant(Minor,D),
    Next is Sofar + Sign * X * D,
    After is Column + 1,
    Other is - Sign,
    along(Xs,After,Other,Rows,Next,Sum).

without_column([],_,[]).
without_column([Row|Rows],Column,[Short|Shorts]) :- without(Column,Row,Short), without_column(Rows,Column,Shorts).

without(1,[_|Xs],Xs) :- !.
without(N,[X|Xs],[X|Ys]) :- M is N - 1, without(M,Xs,Ys).

adjugate(Matrix,Adjugate) :- minors(Matrix,[],1,Rows), transpose(Rows,Adjugate).

minors([],_,_,[]).
minors([Row|After],Before,Sign,[Minors|Rest]) :-
    append_reversed(Before,After,Others),
    row_minors(Row,1,Sign,Others,Minors),
    Other is - Sign,
    minors(After,[Row|Before],Other,Rest).

row_minors([],_,_,_,[]).
row_minors([_|Row],Column,Sign,Others,[Minor|Minors]) :-
    without_column(Others,Column,Rows),
    determinant(Rows,D),
    Minor is Sign * D,
    After is Column + 1,
    Other is - Sign,
    row_minors(Row,After,Other,Others,Minors).

append_reversed([],Rows,Rows).
append_reversed([Row|Rows],Sofar,All) :- append_reversed(Rows,[Row|Sofar],All).

diagonal([],_,_).
diagonal([Row|Rows],D,Zeros) :- zeros_but(Row,Zeros,D), Next is Zeros + 1, diagonal(Rows,D,Next).

zeros_but([D|Xs],0,D) :- !, zeros(Xs).
zeros_but([0|Xs],N,D) :- M is N - 1, zeros_but(Xs,M,D).

zeros([]).
zeros([0|Xs]) :- zeros(Xs).
