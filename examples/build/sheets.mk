# A rule for make: a sheet that is refused leaves no half-made target behind.
CSSMIN ?= cssmin

build/%.min.css: src/%.css
	@mkdir -p $(@D)
	$(CSSMIN) min <$< >$@.new && mv $@.new $@ || { rm -f $@.new; exit 1; }
