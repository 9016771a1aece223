% query: life(8,Alive)
% Conway's game of life on a board of fixed size, as lists of rows: a glider on its way. Each generation is drawn, and the answer
% counts the living cells at the end. What is outside the board is dead.

:- entry(life(ground,out)).

life(Generations,Alive) :- start(Board), run(Generations,Board,Alive).

start([
    [0,1,0,0,0,0,0,0],
    [0,0,1,0,0,0,0,0],
    [1,1,1,0,0,0,0,0],
    [0,0,0,0,0,0,0,0],
    [0,0,0,0,0,0,0,0],
    [0,0,0,0,0,0,0,0]
]).

run(0,Board,Alive) :- !, draw(Board), count(Board,0,Alive).
run(N,Board,Alive) :-
    draw(Board), nl,
    next(Board,New),
    M is N - 1,
    run(M,New,Alive).

draw([]).
draw([Row|Rows]) :- draw_row(Row), nl, draw(Rows).

draw_row([]).
draw_row([Cell|Cells]) :- ( Cell =:= 1 -> put_char('o') ; put_char('.') ), draw_row(Cells).

count([],N,N).
count([Row|Rows],Sofar,N) :- sum(Row,Sofar,Next), count(Rows,Next,N).

sum([],N,N).
sum([X|Xs],Sofar,N) :- Next is Sofar + X, sum(Xs,Next,N).

% Three rows at a time, with a dead row above the first and below the last one.
next([Row|Rows],New) :- dead(Row,Dead), next_rows(Dead,Row,Rows,Dead,New).

next_rows(Above,Row,[],Dead,[New]) :- !, next_row(Above,Row,Dead,New).
next_rows(Above,Row,[Below|Rows],Dead,[New|News]) :-
    next_row(Above,Row,Below,New),
    next_rows(Row,Below,Rows,Dead,News).

dead([],[]).
dead([_|Cells],[0|Dead]) :- dead(Cells,Dead).

% Three columns at a time, in the same way.
next_row([A|As],[B|Bs],[C|Cs],New) :-
    Column is A + B + C,
    next_cells(0,Column,B,As,Bs,Cs,New).

next_cells(Left,Middle,Cell,[],[],[],[New]) :- !,
    Around is Left + Middle - Cell,
    fate(Around,Cell,New).
next_cells(Left,Middle,Cell,[A|As],[B|Bs],[C|Cs],[New|News]) :-
    Right is A + B + C,
    Around is Left + Middle + Right - Cell,
    fate(Around,Cell,New),
    next_cells(Middle,Right,B,As,Bs,Cs,News).

fate(3,_,1) :- !.
fate(2,Cell,Cell) :- !.
fate(_,_,0).
