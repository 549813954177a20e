# prints Hi
	.text
	.globl	main
main:
	move	$16,$31
	li	$4,72
	jal	putchar
	li	$4,105
	jal	putchar
	li	$4,10
	jal	putchar
	li	$2,0
	j	$16
