" Vim's compiler for BibTeX, proved: after `:compiler bibtex-search`, `:make` in a window of JOB.tex or JOB.aux runs `bibtex-search -terse JOB`, and lists
" each of its messages, with the file and the line of its place.
if exists('current_compiler')
  finish
endif
let current_compiler = 'bibtex-search'

if exists(':CompilerSet') != 2
  command -nargs=* CompilerSet setlocal <args>
endif

CompilerSet makeprg=bibtex-search\ -terse\ %:r:S

" What shows a line of a file, what was skipped, a literal that a style shows, and what is said of the messages in brackets are no messages.
CompilerSet errorformat=%-GThe\ list\ is\ made%.%#,%-G\ :%.%#,%-GI'm\ skipping%.%#,%-G(There%.%#,%-G(Error\ may%.%#,%-G(Where%.%#,%-G\"%.%#\"
" The parent of the message before it, which is about a cross-reference.
CompilerSet errorformat+=%+Zrefers%.%#
" The place of the message before it.
CompilerSet errorformat+=%Zwhile\ executing---line\ %l\ of\ file\ %f,%Z---line\ %l\ of\ file\ %f,%Z--line\ %l\ of\ file\ %f
" What is said of half a letter in the list. Then the errors of a style that a name in the database makes, or a field that an entry lacks: for the line after one (`%>`) the
" formats are tried from here on, so that the style's place, in which nothing is to be mended, isn't taken.
CompilerSet errorformat+=%+WLine\ %.%#\ of\ the\ list\ %.%#
CompilerSet errorformat+=%+E%>Too\ many\ commas\ %.%#,%+E%>Name\ %.%#\ has\ a\ comma\ at\ the\ end\ %.%#,%+E%>%.%#\ is\ a\ missing\ field%.%#
CompilerSet errorformat+=%Zwhile\ executing---%.%#
" A message with its place; one about a cross-reference; a warning and an error whose place may follow.
CompilerSet errorformat+=%E%m---line\ %l\ of\ file\ %f,%E%m---while\ reading\ file\ %f,%EA\ bad\ cross\ reference---%m,%WWarning--%m,%E%m
