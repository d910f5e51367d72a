%% OTP's own pg: a member that joins, ends and is taken out of its group, and one that reads it meanwhile.
%% words: --after-timeout 5000
%% error: P ends {'members',1}
%% error: P.2 ends {'members',1}
%% error: P.4 ends {'noproc',{'gen_server','call',['scope',{'join_local','group',P.4},'infinity']}}
%% error: P.4 ends {{'members',1},{'gen_server','call',['scope',{'join_local','group',P.4},'infinity']}}
-module(groups).
-export([main/0]).

main() ->
    {ok, _} = pg:start_link(scope),
    Other = spawn(fun() -> ok = pg:join(scope, group, self()) end),
    ok = pg:join(scope, group, self()),
    Members = pg:get_local_members(scope, group),
    true = lists:member(self(), Members),
    exit({members, length(Members -- [Other])}).
