% query: packed(Row,Runs,Same)
% Run-length encoding of the rows of a small picture, and back again: each row is packed to runs of equal points, the runs are
% unpacked, and the last value says whether the row came back. The picture is written first.

:- entry(packed(out,out,out)).

packed(Row,Runs,Same) :-
    picture(Row,Codes),
    points(Codes,Points),
    draw(Points),
    pack(Points,Runs),
    unpack(Runs,Again),
    ( Points = Again -> Same = yes ; Same = no ).

picture(1,"...####....").
picture(2,".##....##..").
picture(3,"#........##").
picture(4,"...........").

points([],[]).
points([0'.|Codes],[white|Points]) :- points(Codes,Points).
points([0'#|Codes],[black|Points]) :- points(Codes,Points).

draw([]) :- nl.
draw([Point|Points]) :- character(Point,Char), put_char(Char), draw(Points).

character(white,' ').
character(black,'#').

pack([],[]).
pack([X|Xs],[N*X|Runs]) :- run(Xs,X,1,N,Rest), pack(Rest,Runs).

run([X|Xs],X,Sofar,N,Rest) :- !, Next is Sofar + 1, run(Xs,X,Next,N,Rest).
run(Rest,_,N,N,Rest).

unpack([],[]).
unpack([0*_|Runs],Points) :- !, unpack(Runs,Points).
unpack([N*X|Runs],[X|Points]) :- M is N - 1, unpack([M*X|Runs],Points).
