" SPDX-License-Identifier: Apache-2.0 OR MIT
" Vim syntax file for traces of clockboard (docs/FORMATS.md). A line that has no form of a trace is an error.
if exists('b:current_syntax')
  finish
endif
syntax case match

syntax match clockboardError /^.\+$/
syntax match clockboardComment /^#.*$/ contains=@Spell
syntax match clockboardAnswer /^# > .*$/
syntax match clockboardBorder /^\%(begin\|end\)$/
syntax match clockboardHeader /^\%(clockboard\|host\|guest\|cpus\|policy\|slew\|wall\|rtc\|state\|route\)\ze \S/ nextgroup=clockboardWords
syntax match clockboardCpu /^\d\+\ze \d\+ \%(in\|out\|hr\|hw\|rdmsr\|wrmsr\|ack\|step\|refresh\|wall\|counts\|next\|page\|clock\|save\|move\|rose\|eoi\|hv\)\%( \S\|$\)/ nextgroup=clockboardCount
syntax match clockboardCount contained / \d\+/ nextgroup=clockboardRecord
syntax match clockboardRecord contained / \a\+/ nextgroup=clockboardWords
syntax match clockboardWords contained / .*$/ contains=clockboardNumber,clockboardSource,clockboardPolicy
syntax match clockboardNumber contained /\<\x\+\>/
syntax match clockboardSource contained /\<\%(pit\|rtc\|hpet\d\|apic\d\+\)\>/
syntax keyword clockboardPolicy contained discard delay slew

highlight default link clockboardError Error
highlight default link clockboardComment Comment
highlight default link clockboardAnswer SpecialComment
highlight default link clockboardBorder Statement
highlight default link clockboardHeader PreProc
highlight default link clockboardCpu Identifier
highlight default link clockboardCount Constant
highlight default link clockboardRecord Function
highlight default link clockboardNumber Number
highlight default link clockboardSource Type
highlight default link clockboardPolicy Type
let b:current_syntax = 'clockboard'
