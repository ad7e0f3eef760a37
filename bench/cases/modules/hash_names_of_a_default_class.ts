export default class { #m() {} [k: string]: any; }
