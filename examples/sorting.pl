% query: sorted(Method,Sorted)
% Four ways of sorting one list of numbers, an answer for each of them.

:- entry(sorted(out,out)).

sorted(Method,Sorted) :-
    numbers(Numbers),
    sorted(Method,Numbers,Sorted).

numbers([31,4,15,92,65,35,89,79,32,38,46,26,43,38,32,79,50,28,84,19,71,69,39,93,75,10,58,20,97,49,44,59]).

sorted(insertion,Numbers,Sorted) :- insertion_sort(Numbers,[],Sorted).
sorted(selection,Numbers,Sorted) :- selection_sort(Numbers,Sorted).
sorted(merge,Numbers,Sorted) :- merge_sort(Numbers,Sorted).
sorted(quick,Numbers,Sorted) :- quick_sort(Numbers,Sorted,[]).

insertion_sort([],Sorted,Sorted).
insertion_sort([X|Xs],Sofar,Sorted) :- insert(X,Sofar,Next), insertion_sort(Xs,Next,Sorted).

insert(X,[],[X]).
insert(X,[Y|Ys],[X,Y|Ys]) :- X =< Y, !.
insert(X,[Y|Ys],[Y|Zs]) :- insert(X,Ys,Zs).

selection_sort([],[]).
selection_sort([X|Xs],[Least|Sorted]) :-
    least(Xs,X,Least),
    without(Least,[X|Xs],Rest),
    selection_sort(Rest,Sorted).

least([],Least,Least).
least([X|Xs],Sofar,Least) :- X < Sofar, !, least(Xs,X,Least).
least([_|Xs],Sofar,Least) :- least(Xs,Sofar,Least).

without(X,[X|Xs],Xs) :- !.
without(X,[Y|Ys],[Y|Zs]) :- without(X,Ys,Zs).

merge_sort([],[]) :- !.
merge_sort([X],[X]) :- !.
merge_sort(Xs,Sorted) :-
    halves(Xs,Ys,Zs),
    merge_sort(Ys,SortedYs),
    merge_sort(Zs,SortedZs),
    merge(SortedYs,SortedZs,Sorted).

halves([],[],[]).
halves([X|Xs],[X|Ys],Zs) :- halves(Xs,Zs,Ys).

merge([],Ys,Ys) :- !.
merge(Xs,[],Xs) :- !.
merge([X|Xs],[Y|Ys],[X|Zs]) :- X =< Y, !, merge(Xs,[Y|Ys],Zs).
merge([X|Xs],[Y|Ys],[Y|Zs]) :- merge([X|Xs],Ys,Zs).

% The sorted list ends with what is sorted behind it, so nothing is appended.
quick_sort([],Rest,Rest).
quick_sort([X|Xs],Sorted,Rest) :-
    divide(Xs,X,Small,Large),
    quick_sort(Small,Sorted,[X|SortedLarge]),
    quick_sort(Large,SortedLarge,Rest).

divide([],_,[],[]).
divide([Y|Ys],X,[Y|Small],Large) :- Y < X, !, divide(Ys,X,Small,Large).
divide([Y|Ys],X,Small,[Y|Large]) :- divide(Ys,X,Small,Large).
