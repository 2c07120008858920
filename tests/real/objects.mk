# Compiles files in C, and in C++ (*.cc), to objects beside them: make -f objects.mk CC=.. CFLAGS=.. FILES=.., where FILES
# are patterns, by default every C file of the working directory.
# CFLAGS may ask for a dependency file $*.d, the object's name with another suffix.
FILES := *.c
OBJECTS := $(addsuffix .o,$(basename $(sort $(wildcard $(FILES)))))
all: $(OBJECTS)
%.o: %.c
	$(CC) $(CFLAGS) -c $< -o $@
%.o: %.cc
	$(CC) $(CFLAGS) -c $< -o $@
clean:
	rm -f $(OBJECTS) $(OBJECTS:.o=.d)
