" In Vim: the language server for ALE, which finds this file by itself.
let s:server = simplify(fnamemodify(resolve(expand('<sfile>:p')), ':h') . '/../../../server/main.py')

call ale#linter#Define('inet', {
\   'name': 'inet',
\   'lsp': 'stdio',
\   'executable': 'python3',
\   'command': '%e ' . ale#Escape(s:server),
\   'project_root': {buffer -> expand('#' . buffer . ':p:h')},
\})
