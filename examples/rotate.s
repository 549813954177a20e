# Reads letters, and prints each one some places on in the alphabet; the other bytes it prints as they are.
	.data
shift:	.word	13
	.text
	.globl	main
main:	subu	$sp,$sp,24
	sw	$31,20($sp)
	sw	$16,16($sp)
next:	jal	getchar
	blt	$2,0,done
	move	$16,$2
	or	$8,$16,0x20		# the letter, as a small one
	subu	$9,$8,97
	bgeu	$9,26,print		# no letter
	lw	$10,shift
	addu	$9,$9,$10
	rem	$9,$9,26
	and	$8,$16,0x20		# capitals stay capitals
	addu	$16,$9,65
	or	$16,$16,$8
print:	move	$4,$16
	jal	putchar
	b	next
done:	lw	$16,16($sp)
	lw	$31,20($sp)
	addu	$sp,$sp,24
	li	$2,0
	j	$31
%%
Uryyb, jbeyq!
