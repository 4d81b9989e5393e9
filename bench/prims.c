// The C twin of prims: the same conditions on the same values, to two planes. HIDDEN keeps the compilers from building
// loops for the one constant that is asked for here, and from leaving out planes that nobody reads.
#define _GNU_SOURCE
#include <stdint.h>
#include <stdio.h>
#include <stdlib.h>
#include <string.h>
#include <time.h>
typedef int64_t i64; typedef uint64_t u64; typedef __int128 i128;
#define K __attribute__((noinline)) static
static u64 now(void){struct timespec t;clock_gettime(CLOCK_MONOTONIC,&t);return t.tv_sec*1000000000ull+t.tv_nsec;}
#define BENCH(name,n,e) for(int rep_=0;rep_<9;rep_++){u64 s_=now();u64 c_=(u64)(e);u64 t_=now()-s_;printf("%s %lld %llu %llu\n",name,(long long)(n),(unsigned long long)t_,(unsigned long long)c_);}
#define EACH(r,e) ({u64 z_=0;for(int i=0;i<(r);i++){asm volatile(""::: "memory");z_+=(u64)(e);}z_;})
static i64* numbers(size_t n,u64 x,u64 below){i64*v=malloc(n*8);for(size_t i=0;i<n;i++){x^=x<<13;x^=x>>7;x^=x<<17;v[i]=(x>>11)%below;}return v;}
typedef struct{const char*p;size_t n;}str;
static int less(str a,str b){size_t m=a.n<b.n?a.n:b.n;int c=memcmp(a.p,b.p,m);return c?c<0:a.n<b.n;}
static int same(str a,str b){return a.n==b.n&&!memcmp(a.p,b.p,a.n);}
#define PLANE(name,ty,args,e) K void name args{for(size_t w=0;w<n/64;w++){u64 b_=0;for(int k=0;k<64;k++){size_t i=w*64+k;b_|=(u64)(e)<<k;}out[w]=b_;}if(n%64){u64 b_=0;for(int k=0;k<n%64;k++){size_t i=n/64*64+k;b_|=(u64)(e)<<k;}out[n/64]=b_;}}
PLANE(lt_c,i64,(const i64*restrict x,size_t n,i64 c,u64*restrict out),x[i]<c)
PLANE(gt_c,i64,(const i64*restrict x,size_t n,i64 c,u64*restrict out),c<x[i])
PLANE(le_c,i64,(const i64*restrict x,size_t n,i64 c,u64*restrict out),x[i]<=c)
PLANE(ge_c,i64,(const i64*restrict x,size_t n,i64 c,u64*restrict out),x[i]>=c)
PLANE(eq_c,i64,(const i64*restrict x,size_t n,i64 c,u64*restrict out),x[i]==c)
PLANE(ne_c,i64,(const i64*restrict x,size_t n,i64 c,u64*restrict out),x[i]!=c)
PLANE(lt_v,i64,(const i64*restrict x,size_t n,const i64*restrict y,u64*restrict out),x[i]<y[i])
PLANE(le_v,i64,(const i64*restrict x,size_t n,const i64*restrict y,u64*restrict out),x[i]<=y[i])
PLANE(eq_v,i64,(const i64*restrict x,size_t n,const i64*restrict y,u64*restrict out),x[i]==y[i])
PLANE(like_in,str,(const str*restrict x,size_t n,str c,u64*restrict out),memmem(x[i].p,x[i].n,c.p,c.n)!=0)
PLANE(like_pre,str,(const str*restrict x,size_t n,str c,u64*restrict out),x[i].n>=c.n&&!memcmp(x[i].p,c.p,c.n))
PLANE(lt32_c,i32,(const int32_t*restrict x,size_t n,int32_t c,u64*restrict out),x[i]<c)
PLANE(eq32_c,i32,(const int32_t*restrict x,size_t n,int32_t c,u64*restrict out),x[i]==c)
PLANE(lt32_v,i32,(const int32_t*restrict x,size_t n,const int32_t*restrict y,u64*restrict out),x[i]<y[i])
PLANE(ltw_c,i128,(const i128*restrict x,size_t n,i128 c,u64*restrict out),x[i]<c)
PLANE(ltw_v,i128,(const i128*restrict x,size_t n,const i128*restrict y,u64*restrict out),x[i]<y[i])
PLANE(eqw_v,i128,(const i128*restrict x,size_t n,const i128*restrict y,u64*restrict out),x[i]==y[i])
PLANE(ltt_c,str,(const str*restrict x,size_t n,str c,u64*restrict out),less(x[i],c))
PLANE(eqt_c,str,(const str*restrict x,size_t n,str c,u64*restrict out),same(x[i],c))
PLANE(ltt_v,str,(const str*restrict x,size_t n,const str*restrict y,u64*restrict out),less(x[i],y[i]))
PLANE(eqt_v,str,(const str*restrict x,size_t n,const str*restrict y,u64*restrict out),same(x[i],y[i]))
static u64 P[18],N[18],M[18],Q[18],T[18],F[18];
static u64 ones(size_t n){return n<64?(1ull<<n)-1:~0ull;}
K void known(const u64*a,const u64*nulls,size_t n,u64*restrict t,u64*restrict f){for(int k=0;k<16;k++){t[k]=a[k]&~nulls[k];f[k]=ones(n<64*k?0:n-64*k)&~(a[k]|nulls[k]);}}
K void either(const u64*a,const u64*b,u64*restrict o){for(int k=0;k<16;k++)o[k]=a[k]|b[k];}
static str* texts(const i64*x,size_t n){str*v=malloc(n*sizeof(str));for(size_t i=0;i<n;i++){char b[40];int k=sprintf(b,"name %lld",(long long)x[i]);char*p=malloc(k);memcpy(p,b,k);v[i]=(str){p,k};}return v;}
#define HIDDEN(x) asm volatile("":"+r"(x)::"memory")
#define T1(e) (e,known(P,N,n,T,F),T[3])
#define T2(e) (e,either(N,M,Q),known(P,Q,n,T,F),T[3])
int main(void){
 u64*planes[]={P,N,M,Q,T,F};for(int i=0;i<6;i++)HIDDEN(planes[i]);
 i64 limit=500;int32_t day=500;i128 wide=(i128)500<<60;size_t n=1024;HIDDEN(limit);HIDDEN(day);HIDDEN(n);asm volatile("":"+m"(wide)::"memory");
 i64*a=numbers(1024,88172645463325252ull,1000),*b=numbers(1024,1234567,1000);
 int r=2000;size_t m=r*1024ull;
 BENCH("compare_i64_lt_constant",m,EACH(r,T1(lt_c(a,n,limit,P))));
 BENCH("compare_i64_le_constant",m,EACH(r,T1(le_c(a,n,limit,P))));
 BENCH("compare_i64_gt_constant",m,EACH(r,T1(gt_c(a,n,limit,P))));
 BENCH("compare_i64_ge_constant",m,EACH(r,T1(ge_c(a,n,limit,P))));
 BENCH("compare_i64_eq_constant",m,EACH(r,T1(eq_c(a,n,limit,P))));
 BENCH("compare_i64_ne_constant",m,EACH(r,T1(ne_c(a,n,limit,P))));
 BENCH("compare_i64_lt",m,EACH(r,T2(lt_v(a,n,b,P))));
 BENCH("compare_i64_le",m,EACH(r,T2(le_v(a,n,b,P))));
 BENCH("compare_i64_eq",m,EACH(r,T2(eq_v(a,n,b,P))));
 BENCH("is_null",m,EACH(r,(known(N,Q,n,T,F),T[3])));
 int32_t*c=malloc(1024*4),*d=malloc(1024*4);for(int i=0;i<1024;i++){c[i]=a[i];d[i]=b[i];}
 BENCH("compare_days_lt_constant",m,EACH(r,T1(lt32_c(c,n,day,P))));
 BENCH("compare_days_lt",m,EACH(r,T2(lt32_v(c,n,d,P))));
 i128*x=malloc(1024*16),*y=malloc(1024*16);for(int i=0;i<1024;i++){x[i]=(i128)a[i]<<60;y[i]=(i128)b[i]<<60;}
 r=500;m=r*1024ull;
 BENCH("compare_i128_lt_constant",m,EACH(r,T1(ltw_c(x,n,wide,P))));
 BENCH("compare_i128_lt",m,EACH(r,T2(ltw_v(x,n,y,P))));
 BENCH("compare_i128_eq",m,EACH(r,T2(eqw_v(x,n,y,P))));
 str*s=texts(a,1024),*t=texts(b,1024);str k={"name 500",8},in={"e 5",3},pre={"name 5",6};
 HIDDEN(k.n);HIDDEN(k.p);HIDDEN(in.n);HIDDEN(in.p);HIDDEN(pre.n);HIDDEN(pre.p);
 r=200;m=r*1024ull;
 BENCH("compare_text_lt_constant",m,EACH(r,T1(ltt_c(s,n,k,P))));
 BENCH("compare_text_eq_constant",m,EACH(r,T1(eqt_c(s,n,k,P))));
 BENCH("compare_text_lt",m,EACH(r,T2(ltt_v(s,n,t,P))));
 BENCH("compare_text_eq",m,EACH(r,T2(eqt_v(s,n,t,P))));
 BENCH("like_infix",m,EACH(r,T1(like_in(s,n,in,P))));
 BENCH("like_prefix",m,EACH(r,T1(like_pre(s,n,pre,P))));
}
