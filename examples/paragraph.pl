% query: paragraph("The quick brown fox jumps over the lazy dog, and the dog sleeps on. Then the sun goes down, and all is still.",28)
% Sets a text in lines of one width: words go on a line as long as they fit, and the spaces that are left over are given to the
% gaps from the left. The last line is not spread. Characters are written one by one.

:- entry(paragraph(ground,ground)).

paragraph(Text,Width) :-
    words(Words,Text,[]),
    lines(Words,Width,Lines),
    rule(Width),
    write_lines(Lines,Width),
    rule(Width).

words(Words) --> " ", !, words(Words).
words([Word|Words]) --> letters(Word), { Word = [_|_] }, !, words(Words).
words([]) --> [].

letters([Char|Chars]) --> [Code], { Code =\= 32, character(Code,Char) }, !, letters(Chars).
letters([]) --> [].

% A line is line(Words,Room), with the room that is left besides one space in each gap.
lines([],_,[]).
lines([Word|Words],Width,[line([Word|Others],Left)|Lines]) :-
    length(Word,0,Length),
    Room is Width - Length,
    fill(Words,Room,Others,Left,Rest),
    lines(Rest,Width,Lines).

fill([Word|Words],Room,[Word|Others],Left,Rest) :-
    length(Word,0,Length),
    Length < Room, !,
    Less is Room - Length - 1,
    fill(Words,Less,Others,Left,Rest).
fill(Words,Room,[],Room,Words).

length([],N,N).
length([_|Xs],Sofar,N) :- Next is Sofar + 1, length(Xs,Next,N).

write_lines([line(Words,_)],_) :- !, put_char('|'), put_words(Words,0,0), put_char('|'), nl.
write_lines([line(Words,Left)|Lines],Width) :-
    gaps(Words,Gaps),
    put_char('|'),
    ( Gaps =:= 0 -> put_words(Words,0,0) ; Each is Left // Gaps, More is Left rem Gaps, put_words(Words,Each,More) ),
    put_char('|'), nl,
    write_lines(Lines,Width).

gaps(Words,Gaps) :- length(Words,0,N), Gaps is N - 1.

put_words([Word],_,_) :- !, put_chars(Word).
put_words([Word|Words],Each,More) :-
    put_chars(Word),
    ( More > 0 -> Spaces is Each + 2, Less is More - 1 ; Spaces is Each + 1, Less = 0 ),
    put_times(Spaces,' '),
    put_words(Words,Each,Less).

put_chars([]).
put_chars([Char|Chars]) :- put_char(Char), put_chars(Chars).

put_times(0,_) :- !.
put_times(N,Char) :- put_char(Char), M is N - 1, put_times(M,Char).

rule(Width) :- put_char('+'), put_times(Width,'-'), put_char('+'), nl.

% There is no built-in that makes an atom of a code.
character(0'a,a). character(0'b,b). character(0'c,c). character(0'd,d). character(0'e,e). character(0'f,f). character(0'g,g).
character(0'h,h). character(0'i,i). character(0'j,j). character(0'k,k). character(0'l,l). character(0'm,m). character(0'n,n).
character(0'o,o). character(0'p,p). character(0'q,q). character(0'r,r). character(0's,s). character(0't,t). character(0'u,u).
character(0'v,v). character(0'w,w). character(0'x,x). character(0'y,y). character(0'z,z).
character(0'T,'T'). character(0',,','). character(0'.,'.').
