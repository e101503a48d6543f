# The rule of a Makefile that replays a trace as a test: `include rv.mk`, then `make rv-test`. RV and RV_COVERAGE are ./rv and
# ./rv-coverage of the checkout, or the programs that they built; rv-json stands beside them in tools/. What a monitor says and
# what rv-coverage finds, as a rule that never fires, are tests of one KTAP report.
RV ?= ./rv
RV_COVERAGE ?= ./rv-coverage
RV_JSON ?= tools/rv-json
BINDINGS ?= examples/wip/wip.rv
TRACE ?= examples/wip/wip.txt

# A variable's value as one word of the shell. What the command line or the environment gives is no text of make's: it may be the name
# of a file of another's, as of a loop over traces. (For commands' environment make would read it as its text.)
unexport BINDINGS TRACE
rv-word = '$(subst ','\'',$(if $(filter command environment,$(firstword $(origin $(1)))),$(value $(1)),$($(1))))'

# what a program ended with, where its text is not whole, ends the rule
rv-whole = case $$status in \
	0 | 1 | 2 | 3 | 6) ;; \
	125) echo '$(1) could not be built, and nothing was judged' >&2; exit 125 ;; \
	*) echo "$(1) ended with $$status, and its text is not whole" >&2; exit $$status ;; \
	esac

.PHONY: rv-test
rv-test:
	@status=0; $(RV) replay $(call rv-word,BINDINGS) $(call rv-word,TRACE) > report.txt || status=$$?; $(call rv-whole,rv)
	@status=0; $(RV_COVERAGE) $(call rv-word,BINDINGS) $(call rv-word,TRACE) > watched.txt || status=$$?; $(call rv-whole,rv-coverage)
	@cat report.txt watched.txt | $(RV_JSON) --trace $(call rv-word,TRACE) --ktap
