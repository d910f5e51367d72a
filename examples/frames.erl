%% ./explore examples/frames.erl
-module(frames).
-export([main/0]).

%% Two writers write to one line: the length of a word, and then the word. A reader takes them apart.
main() ->
    Line = self(),
    [spawn(fun() -> write(Line, Word) end) || Word <- [<<"ab">>, <<"cd">>]],
    io:format("~p~n", [words(joined(4, <<>>))]).

write(Line, Word) ->
    Line ! {piece, <<(byte_size(Word)):16>>},
    Line ! {piece, Word}.

joined(0, Bytes) -> Bytes;
joined(N, Bytes) -> receive {piece, Piece} -> joined(N - 1, <<Bytes/binary, Piece/binary>>) end.

words(<<Length:16, Word:Length/binary, Rest/binary>>) -> [Word | words(Rest)];
words(<<>>) -> [].
