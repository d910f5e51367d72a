%% Logins that are over are matched and deleted while one of them is opened again.
%% want: main ends {badmatch,[]} in some schedule
%% depth: 12
%% error: P ends {{'badmatch',[]},[]}
-module(match_and_delete).
-export([main/0]).

main() ->
    T = ets:new(logins, [public]),
    ets:insert(T, [{s1, over}, {s2, open}]),
    Me = self(),
    spawn(fun() -> ets:insert(T, {s1, open}), Me ! opened end),
    [ets:delete(T, S) || [S] <- ets:match(T, {'$1', over})],
    receive opened -> ok end,
    [{s1, open}] = ets:lookup(T, s1).
